// The clock of the present round at the director's desk.

import { button, element, field } from "../dom.js";
import { leftText, minutesOf, mostMinutes } from "../round_clock.js";
import { texts } from "../texts.js";
import { section } from "./marks.js";

export function clockSection(page) {
  const { round, phase } = page.state.facts;
  if (phase !== "Running") return null;
  const left = page.clock.leftIn(round);
  return section(texts.clock.title, left === null ? startForm(page, round) : runningView(page, round, left));
}

/** Seven and a half minutes a board, until something else is typed. */
const usualMinutes = ({ per_set: perSet }) => String(Math.ceil(7.5 * perSet));

function startForm(page, round) {
  const { clock: form } = page.forms;
  form.minutes ??= usualMinutes(page.state.facts);
  const start = () => {
    const minutes = minutesOf(form.minutes);
    if (minutes === null) page.refuse(texts.clock.badMinutes(mostMinutes));
    else page.startClock(round, minutes);
  };
  return [
    element("p", { class: "note" }, texts.clock.explained),
    element("div", { class: "fields" },
      field("clock-minutes", texts.clock.minutes(round), {
        type: "number",
        inputmode: "numeric",
        min: 1,
        max: mostMinutes,
        value: form.minutes,
        onInput: (event) => { form.minutes = event.target.value; },
      }),
      button("start-clock", texts.clock.start, start)),
  ];
}

function runningView(page, round, left) {
  return [
    element("p", { class: left <= 0 ? "clock over" : "clock" },
      element("span", { id: "clock-left", role: "timer" }, leftText(left)),
      " ",
      element("span", { class: "note" }, texts.clock.ofRound(round, new Date(Date.now() + left), left <= 0))),
    element("p", { class: "actions" }, button("stop-clock", texts.clock.stop, () => page.stopClock(), { class: "quiet" })),
  ];
}

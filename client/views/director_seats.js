// Who sits where: seats that are given and taken away.

import { choice } from "../choices.js";
import { button, element, field } from "../dom.js";
import { ask, command } from "../messages.js";
import { isTurned, namedSideOf } from "../movement.js";
import { hasShownName, nameOf, pairText, personText } from "../people.js";
import { texts } from "../texts.js";
import { accountMark, section } from "./marks.js";

export function seatsSection(page) {
  const { facts } = page.state;
  return section(
    texts.director.seats,
    element(
      "details",
      { id: "seats-list" },
      element("summary", { id: "seats-summary" }, texts.director.seatsCount(facts.seats.length)),
      // a list that is closed isn't drawn
      page.isOpen("seats-list") && element("ul", { class: "rows" }, facts.seats.map((seat) => seatItem(page, seat))),
    ),
    element("h3", {}, texts.director.seatTitle),
    facts.pairs.some((pair) => isTurned(facts.rows, pair)) && element("p", { class: "note", id: "seat-note" }, texts.director.seatNote),
    seatForm(page),
  );
}

function seatItem(page, [name, pair, place]) {
  const { facts } = page.state;
  const person = personText(facts, name);
  const take = () => page.perform([command.unseat(name)], texts.director.unseated(person));
  return element(
    "li",
    {},
    element("span", {}, `${pair} ${place} `, element("b", {}, accountMark(facts, name))),
    page.twoStep(`unseat-${name}`, texts.director.unseat(person), texts.director.unseatSure(person), take),
  );
}

function seatForm(page) {
  const { facts } = page.state;
  const form = page.forms.seat;
  if (!facts.pairs.includes(form.pair)) form.pair = facts.pairs[0] ?? "";
  const places = namedSideOf(form.pair) === "NS" ? ["N", "S"] : ["E", "W"];
  if (!places.includes(form.place)) form.place = places[0];
  const set = (part) => (value) => {
    form[part] = value;
    page.draw();
  };
  const note = (event) => {
    form.name = event.target.value;
  };
  const pairs = facts.pairs.map((pair) => [pair, pairText(facts, pair)]);
  return element(
    "div",
    { class: "fields" },
    element("datalist", { id: "user-names" }, unseated(page).map((name) =>
      element("option", { value: name, label: hasShownName(facts, name) ? nameOf(facts, name) : null }))),
    field("seat-name", texts.director.user, { value: form.name, list: "user-names", onInput: note }),
    choice("seat-pair", texts.director.pair, pairs, form.pair, set("pair")),
    choice("seat-place", texts.director.place, places.map((place) => [place, texts.place[place]]), form.place, set("place")),
    button("seat", texts.director.seat, () => giveSeat(page)),
  );
}

/** Users without a seat, to choose from. */
function unseated(page) {
  const users = page.answer(ask.accounts())?.value?.users ?? [];
  return users.map(([name]) => name).filter((name) => !page.state.facts.seats.some((seat) => seat[0] === name));
}

function giveSeat(page) {
  const form = page.forms.seat;
  const name = form.name.trim();
  return page.perform([command.seat(name, form.pair, form.place)], texts.director.seated(personText(page.state.facts, name), form.pair), () => {
    form.name = "";
  });
}

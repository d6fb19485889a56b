// A player who comes without a card, as a substitute or anew: one form for the account, the role and the seat, and then a card.

import { choice } from "../choices.js";
import { button, element, field } from "../dom.js";
import { ask } from "../messages.js";
import { namedSideOf } from "../movement.js";
import { apart, texts } from "../texts.js";
import { canDigest, digestOf, newToken } from "../tokens.js";
import { canBeShown, signInNameFor, sitsAt, stepsOf } from "../walk_ins.js";
import { pairText, personText } from "../people.js";
import { seatOf } from "../public_facts.js";
import { section } from "./marks.js";

/** For whoever may add users; whoever may direct as well gives the seat with it. */
export function walkInSection(page) {
  const { facts, permissions } = page.state;
  if (!permissions?.administer) return null;
  const form = page.forms.walkIn;
  return section(
    texts.walkIn.title,
    element("p", {}, permissions.direct ? texts.walkIn.explained : texts.walkIn.explainedWithoutSeat),
    canDigest() ? walkInForm(page, facts, form, permissions.direct)
      : element("p", { class: "error", id: "walk-in-not-secure" }, texts.walkIn.notSecure),
    form.made && cardView(page, form),
  );
}

function walkInForm(page, facts, form, givesSeat) {
  if (!facts.pairs.includes(form.pair)) form.pair = facts.pairs[0] ?? "";
  const places = namedSideOf(form.pair) === "NS" ? ["N", "S"] : ["E", "W"];
  if (!places.includes(form.place)) form.place = places[0];
  const set = (part) => (value) => {
    form[part] = value;
    page.draw();
  };
  const leaves = givesSeat ? sitsAt(facts, form.pair, form.place) : null;
  return element("div", { class: "fields" },
    field("walk-in-shown", texts.walkIn.shown, {
      value: form.shown,
      autocapitalize: "words",
      maxlength: 64,
      onInput: (event) => {
        form.shown = event.target.value;
      },
    }),
    givesSeat && choice("walk-in-pair", texts.director.pair, facts.pairs.map((pair) => [pair, pairText(facts, pair)]), form.pair, set("pair")),
    givesSeat && choice("walk-in-place", texts.director.place, places.map((place) => [place, texts.place[place]]), form.place, set("place")),
    leaves && element("p", { class: "note", id: "walk-in-leaves" }, texts.walkIn.leaves(personText(facts, leaves))),
    button("walk-in", texts.walkIn.button, () => addWalkIn(page, form, givesSeat), { class: "main" }));
}

/** All in one batch. The server gets the token's digest alone. */
async function addWalkIn(page, form, givesSeat) {
  const { facts } = page.state;
  const shown = form.shown.trim();
  const accounts = page.answer(ask.accounts())?.value?.users;
  if (!canBeShown(shown)) return page.refuse(texts.walkIn.badShown);
  if (!accounts) return page.refuse(texts.waiting);
  const token = newToken();
  const name = signInNameFor(shown, accounts.map(([each]) => each));
  const seat = givesSeat ? { pair: form.pair, place: form.place, leaves: sitsAt(facts, form.pair, form.place) } : null;
  const steps = stepsOf({ shown, name, digest: await digestOf(token) }, seat, facts.edition);
  const done = (answers) => {
    if (answers[0] !== "ok") return "";
    return seat && answers.at(-1) === "ok" ? texts.walkIn.seated(apart(shown), name, seat.pair) : texts.walkIn.added(apart(shown), name);
  };
  const refusedAt = (answer, index) => texts.walkIn.refused(texts.walkIn.step[steps[index].step], texts.refusal(answer));
  const explain = (answers) => answers.map((answer, index) => (answer === "ok" ? "" : refusedAt(answer, index))).filter(Boolean).join(" ");
  return page.perform(steps.map(({ command }) => command), done, () => {
    Object.assign(form, { shown: "", made: { shown, name, token } });
  }, explain);
}

/** The token is shown here once, and kept nowhere. */
function cardView(page, form) {
  const { shown, name, token } = form.made;
  const seat = seatOf(page.state.facts, name);
  const row = (term, ...content) => [element("dt", {}, term), element("dd", {}, ...content)];
  const print = () => {
    document.body.classList.add("prints-card");
    globalThis.print();
    document.body.classList.remove("prints-card");
  };
  const putAway = () => {
    form.made = null;
    page.draw();
  };
  return element("div", { class: "card-made", id: "card-made", role: "status" },
    element("h3", {}, element("bdi", {}, shown)),
    element("dl", {},
      seat && row(texts.walkIn.seat, `${seat.pair}, ${texts.place[seat.place]}`),
      row(texts.walkIn.address, page.ownAddress),
      row(texts.signIn.name, element("code", { id: "card-name" }, name)),
      row(texts.signIn.token, element("code", { id: "card-token" }, token))),
    element("p", { class: "note no-print" }, texts.accounts.tokenNote),
    element("p", { class: "actions no-print" },
      button("print-card", texts.walkIn.print, print, { class: "main" }),
      button("forget-card", texts.accounts.forgetToken, putAway, { class: "quiet" })));
}

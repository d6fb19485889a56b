// The play of a result: cards to tap, words to type or to paste, and a claim.

import { suits } from "../cards.js";
import { choice } from "../choices.js";
import { button, element, keptPart } from "../dom.js";
import { expectedCards, isTold, overOf, playOf, revokeOf, tricksSoFar, turnOf } from "../plays.js";
import { texts } from "../texts.js";
import { cardMark, strainMark } from "./marks.js";

const ranks = [..."AKQJT98765432"];

/**
 * @param {string} name of the form
 * @param {import("../results.js").Draft} draft
 * @param {(draft: import("../results.js").Draft) => void} onChange
 * @param {{isOpen: boolean, hands: object|null}} options with the hands, where the user sees them
 */
export function playPart(name, draft, onChange, { isOpen, hands }) {
  const { cards, fault } = playOf(draft.play, draft);
  const counted = cards.length ? texts.form.playCards(cards.length) : texts.form.playNote;
  return element(
    "details",
    { id: `${name}-play-part` },
    element("summary", { id: `${name}-play-summary` }, texts.form.play, cards.length > 0 && `: ${counted}`),
    // what is closed isn't made: there are 52 cards in it
    isOpen && tapped(name, draft, cards, onChange, hands),
    element(
      "div",
      { class: "field" },
      element("label", { for: `${name}-play` }, texts.form.playLabel),
      element("textarea", {
        id: `${name}-play`,
        rows: 3,
        value: draft.play,
        spellcheck: "false",
        autocapitalize: "characters",
        "aria-describedby": `${name}-play-note`,
        onInput: (event) => onChange(withText(draft, event.target.value)),
      }),
      element(
        "p",
        { id: `${name}-play-note`, class: fault ? "note fault" : "note" },
        fault ? texts.form.playFault(fault) : counted,
      ),
    ),
  );
}

/** A pasted text may tell the declarer's tricks too. */
function withText(draft, play) {
  const { tricks, fault } = playOf(play, draft);
  const isResult = tricks !== null && fault === null && draft.level !== null && tricks <= 13;
  return isResult ? { ...draft, play, over: overOf(tricks, draft) } : { ...draft, play };
}

function tapped(name, draft, cards, onChange, hands) {
  if (!isTold(draft)) return element("p", { class: "note", id: `${name}-play-first` }, texts.form.playFirst);
  const put = (more) => onChange({ ...draft, play: more.join(" ") });
  return element("div", { class: "play-taps" },
    turnView(name, draft, cards),
    cardRows(name, draft, cards, hands, put),
    warnings(name, draft, cards),
    element("p", { class: "actions" }, cards.length > 0 && button(
      `${name}-take-back`,
      [texts.form.takeBack, " ", cardMark(cards.at(-1))],
      () => put(cards.slice(0, -1)),
      { class: "quiet" },
    )),
    claimView(name, draft, cards, onChange));
}

function turnView(name, draft, cards) {
  const turn = turnOf(cards, draft);
  const { won, left } = tricksSoFar(cards, draft);
  return element("p", { id: `${name}-turn`, role: "status" },
    turn ? texts.form.turn(turn.trick, turn.place, turn.led !== null) : texts.form.playDone,
    turn?.led && [" ", texts.form.toTrick, turn.played.map(({ place, card }) => [` ${place} `, cardMark(card)])],
    element("span", { id: `${name}-so-far`, class: "note" }, " ", texts.form.soFar(won, left)));
}

/**
 * What can't be the next card by the rules, as far as they tell, is drawn faintly; it can be tapped, for play isn't always by the rules.
 * A tap changes the row of its card, and of the others, which are kept, at most which suit was led.
 */
function cardRows(name, draft, cards, hands, put) {
  const [expected, led] = [expectedCards(cards, draft, hands), turnOf(cards, draft)?.led?.[0] ?? null];
  const classOf = (card) => (cards.includes(card) ? "card-tap played" : expected.has(card) ? "card-tap" : "card-tap unexpected");
  return suits.map((suit) => {
    const classes = ranks.map((rank) => classOf(suit + rank));
    return keptPart("div", {
      id: `${name}-cards-${suit}`,
      class: suit === led ? "card-row led" : "card-row",
      role: "group",
      "aria-label": texts.form.cardsOf(texts.strain[suit]),
      onClick: ({ target }) => {
        const card = cardOfButton(target);
        if (card && !cards.includes(card)) put([...cards, card]);
      },
    }, classes, () => [
      element("span", { class: "row-suit", "aria-hidden": "true" }, strainMark(suit)),
      ranks.map((rank, index) => cardButton(name, suit, rank, classes[index])),
    ]);
  });
}

const cardButton = (name, suit, rank, classes) => element("button", {
  type: "button",
  id: `${name}-card-${suit}${rank}`,
  class: classes,
  "aria-disabled": classes.endsWith("played") ? "true" : null,
  "aria-label": texts.form.cardName(texts.strain[suit], texts.rank(rank)),
}, texts.rank(rank));

/** The card of a button, by the end of its id; none where something else of a row was tapped. */
const cardOfButton = (target) => (target.tagName === "BUTTON" ? target.id.slice(-2) : null);

function warnings(name, draft, cards) {
  const revoke = revokeOf(cards, draft);
  const { won, left } = tricksSoFar(cards, draft);
  const isOther = left === 0 && draft.level !== null && draft.over !== null && overOf(won, draft) !== draft.over;
  return [
    revoke && element(
      "p",
      { class: "note fault", id: `${name}-revoke` },
      cardMark(revoke.card),
      " ",
      texts.form.revoked(revoke.place, revoke.trick, revoke.earlier),
    ),
    isOther && element("p", { class: "note fault", id: `${name}-contradicts` }, texts.form.contradicts(won)),
  ];
}

/** A claim tells the tricks of the result, and leaves the play at the cards so far. */
function claimView(name, draft, cards, onChange) {
  const { won, left } = tricksSoFar(cards, draft);
  if (left === 0 || draft.level === null) return null;
  const claimed = draft.over === null ? "" : draft.over + draft.level + 6 - won;
  const options = Array.from({ length: left + 1 }, (_, count) => [count, texts.form.claimed(count, left)]);
  const claim = (value) => value !== "" && onChange({ ...draft, over: overOf(won + Number(value), draft) });
  return element("div", { class: "fields" },
    choice(`${name}-claim`, texts.form.claim, [["", texts.form.noClaim], ...options], claimed, claim),
    element("p", { class: "note" }, texts.form.claimNote));
}

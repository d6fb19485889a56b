// Suits, contracts, pairs and states as they are drawn: a symbol for who sees it, a letter for who wants letters, and a
// word for who listens.

import { element, heading } from "../dom.js";
import { hasShownName, nameOf } from "../people.js";
import { tricksText } from "../scoring.js";
import { playersOf } from "../public_facts.js";
import { texts } from "../texts.js";

const symbols = { S: "♠", H: "♥", D: "♦", C: "♣" };

export const unseen = (text) => element("span", { class: "unseen" }, text);

/** A suit's symbol in its colour, or NT. */
export function strainMark(strain) {
  if (strain === "N") return strainSigns(strain);
  return element("span", { class: `strain suit-${strain}` },
    element("span", { class: "symbol", "aria-hidden": "true" }, symbols[strain]),
    element("span", { class: "letter", "aria-hidden": "true" }, strain),
    unseen(texts.strain[strain]));
}

/** The same where it is said elsewhere. */
function strainSigns(strain) {
  if (strain === "N") return element("span", { class: "strain notrump" }, texts.strainLetter.N);
  return element("span", { class: `strain suit-${strain}` },
    element("span", { class: "symbol" }, symbols[strain]),
    element("span", { class: "letter" }, strain));
}

/** "4♠ X by N, +1", said in words too. */
export function resultMark(result) {
  if (result === "pass") return element("span", {}, texts.passedOut);
  const doubled = texts.doubledMark[result.doubled];
  return element("span", { class: "result" },
    element("span", { "aria-hidden": "true" },
      element(
        "b",
        {},
        result.level,
        strainSigns(result.strain),
        doubled && element("span", { class: "doubled" }, doubled),
      ),
      " ", element("span", { class: "declarer" }, result.by), " ", tricksText(result)),
    unseen(texts.resultInWords(result)));
}

/** A card: its suit's mark and its rank. */
export const cardMark = (card) => element("span", { class: "card" }, strainMark(card[0]), texts.rank(card[1]));

/** A person's name, cut where there is no room for all of it, and then whole under the pointer. */
export function personMark(facts, user) {
  const name = nameOf(facts, user);
  return element("bdi", { class: "person", title: hasShownName(facts, user) ? name : null }, name);
}

/** The same at a desk where the name for signing in counts: it stands behind. */
export function accountMark(facts, user) {
  if (!hasShownName(facts, user)) return user;
  return [personMark(facts, user), " ", element("span", { class: "sign-in-name" }, `(${user})`)];
}

/** The players of a pair by their names, or null where nobody sits in it. */
export function playersMark(facts, pair) {
  const players = playersOf(facts, pair).map((user, index) => [index > 0 && " – ", personMark(facts, user)]);
  return players.length ? element("span", { class: "players" }, players) : null;
}

/** The same with the pair behind: "Anna Müller – Ben Roth (NS1)". */
export function pairMark(facts, pair) {
  const [players, mark] = [playersMark(facts, pair), element("b", {}, pair)];
  return element("span", { class: "pair" }, players ? [players, " (", mark, ")"] : mark);
}

/** The session's title and date, where it has them: above what goes on paper. */
export function occasionView({ title, date }) {
  const text = texts.occasion(title, date);
  return text !== "" && element("p", { class: "occasion" }, element("bdi", {}, text));
}

/** The same at the head of each card of a paper that is cut, or handed out card by card: printed, and not on the screen. */
export const occasionOfCard = (facts) => element("div", { class: "on-paper" }, occasionView(facts));

export const stateMark = (state, text) => element("span", { class: `state state-${state}` }, text);

export const section = (title, ...children) => element(
  "section",
  { class: "panel" },
  title && element("h2", {}, title),
  ...children,
);

export const waiting = () => element("p", { class: "waiting" }, texts.waiting);

/** A view of what the session doesn't have. */
export const notThere = (title, error) => [heading(title), element("p", { class: "error" }, texts.error(error))];

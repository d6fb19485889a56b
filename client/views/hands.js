// The hand diagram: four hands around the table, with dealer and vulnerability.

import { handsOf, places, pointsOf, suits } from "../cards.js";
import { element } from "../dom.js";
import { isVulnerable } from "../scoring.js";
import { texts } from "../texts.js";
import { strainMark, unseen } from "./marks.js";

/**
 * @param {import("../messages.js").Board} board
 * @param {...any} corner what stands in the free corner of a hand record
 */
export function handsView(board, ...corner) {
  const hands = handsOf(board.deal);
  if (!hands) return element("p", { class: "error" }, texts.error("BadDeal"));
  return element(
    "div",
    { class: "diagram" },
    places.map((place) => handView(place, hands[place], board)),
    compass(board),
    corner,
  );
}

function handView(place, hand, board) {
  return element("section", { class: `hand hand-${place}`, "aria-label": texts.place[place], "data-place": place },
    element("h3", {}, texts.place[place], " ", element("span", { class: "points" }, texts.points(pointsOf(hand))),
      board.dealer === place && [" ", element("span", { class: "dealer" }, texts.dealer)]),
    element(
      "dl",
      {},
      suits.map((suit) => [element("dt", {}, strainMark(suit)), element("dd", {}, ranksView(hand[suit]))]),
    ));
}

function ranksView(ranks) {
  if (ranks === "") return [element("span", { "aria-hidden": "true" }, "—"), unseen(texts.void)];
  return [...ranks].map((rank) => texts.rank(rank)).join(" ");
}

function compass(board) {
  const mark = (place) => element(
    "span",
    { class: `compass-${place}${isVulnerable(place, board.vul) ? " vulnerable" : ""}` },
    place,
  );
  return element("div", { class: "compass" },
    element("div", { class: "compass-box", "aria-hidden": "true" }, places.map(mark), element("b", {}, board.number)),
    element("p", { class: "unseen" }, texts.marks(board.dealer, board.vul)));
}

// The play at a table, card by card, and what each card cost the side that played it.

import { places, tricksOf } from "../cards.js";
import { element, table } from "../dom.js";
import { texts } from "../texts.js";
import { cardMark, unseen } from "./marks.js";

/**
 * @param {string[]|null} cards
 * @param {number[]|"pending"|{not_a_play: number}|null} costs null too where they aren't shown
 * @param {import("../messages.js").Result|undefined} result the table's, as the traveller has it
 */
export function playView(cards, costs, result) {
  if (cards === null) return element("p", {}, texts.play.noResult);
  if (cards.length === 0) return element("p", {}, texts.play.none);
  if (!result || result === "pass") return element("p", {}, cards.map((card) => [cardMark(card), " "]));
  const tricks = tricksOf(cards, result);
  return [
    table(
      texts.play.caption,
      [texts.play.trick, ...places.map((place) => texts.place[place])],
      tricks.map((trick, index) => trickRow(trick, index, costs)),
      { class: "play" },
    ),
    element("p", { class: "note" }, texts.play.note, " ", costsNote(costs)),
  ];
}

function trickRow(trick, index, costs) {
  const cellOf = (place) => {
    const played = trick.played.find((card) => card.place === place);
    return element(
      "td",
      { class: place === trick.winner ? "winner" : null },
      played && cardView(played, costs),
      place === trick.leader && element("span", { class: "lead" }, texts.play.lead),
    );
  };
  return [String(index + 1), ...places.map(cellOf)];
}

function cardView(played, costs) {
  const cost = Array.isArray(costs) ? costs[played.index] ?? 0 : 0;
  const isFaulty = costs?.not_a_play === played.index + 1;
  return [cardMark(played.card),
    cost > 0 && element("span", { class: "cost" }, `−${cost}`), cost > 0 && unseen(texts.play.cost(cost)),
    isFaulty && element("span", { class: "cost" }, texts.play.notLegal)];
}

function costsNote(costs) {
  if (costs === "pending") return texts.play.pending;
  if (costs?.not_a_play) return texts.play.notAPlay(costs.not_a_play);
  if (!Array.isArray(costs) || costs.length === 0) return "";
  return texts.play.total(costs.reduce((sum, cost) => sum + cost, 0));
}

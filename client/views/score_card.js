// A pair's score card, on the page and on paper.

import { element, table } from "../dom.js";
import { pairText, playersText } from "../people.js";
import { unitsText } from "../percentages.js";
import { texts } from "../texts.js";
import { pairMark, resultMark } from "./marks.js";

/** @param {import("../score_cards.js").ScoreLine[]} lines */
export function scoreCardView(facts, lines, pair) {
  if (lines.length === 0) return element("p", {}, texts.scoreCard.empty);
  const rows = lines.map(({ board, against, result, score, points, percent, soFar, total }) => [
    String(board),
    pairMark(facts, against),
    result ? resultMark(result) : texts.traveller.ruling,
    score === null ? "" : String(score).replace("-", "−"),
    percent || texts.noTop,
    soFar || texts.noTop,
    points ?? "",
    total.tops ? texts.session.ofTops(unitsText(total.earned), unitsText(total.tops)) : texts.noTop,
  ]);
  const isFirst = lines.some(({ percent }) => percent === "");
  return [
    table(texts.scoreCard.caption(pairText(facts, pair)), texts.scoreCard.heads, rows, { class: "score-card" }),
    isFirst && element("p", { class: "note" }, texts.scoreCard.first),
  ];
}

/** A card's lines for a spreadsheet. */
export function scoreCardLines(facts, lines, pair) {
  return lines.map(({ round, board, against, result, score, points, percent, soFar, total }) => [
    pair,
    playersText(facts, pair),
    round,
    board,
    against,
    playersText(facts, against),
    result ? texts.resultInWords(result) : texts.traveller.ruling,
    score,
    points,
    percent,
    soFar,
    unitsText(total.earned),
    unitsText(total.tops),
  ]);
}

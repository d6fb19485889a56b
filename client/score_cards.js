// Score cards: what a pair has made of its boards, in the order in which it plays them, and how it stands after each.

import { percentText, topOf } from "./percentages.js";
import { rowOf } from "./public_facts.js";

/** @typedef {import("./public_facts.js").Facts} Facts */

/**
 * @typedef {object} ScoreLine
 * @property {number} round
 * @property {number} board
 * @property {string} against the opponents
 * @property {import("./messages.js").Result|null} result null where there is a ruling
 * @property {number|null} score for the pair; null where there is a ruling
 * @property {number|null} points the matchpoints; null where there is a ruling, or no other result to compare with
 * @property {string} percent "" where there is nothing to compare with
 * @property {string} soFar the percentage of this board and those before it, "" as long as there is none
 * @property {{earned: number, tops: number}} total the matchpoints of this board and those before it, and their tops, in hundredths
 */

/**
 * @param {Facts} facts
 * @param {{board: number, rows: import("./messages.js").TravellerRow[]}[]} travellers
 * @returns {ScoreLine[]}
 */
export function scoreCardOf(facts, travellers, pair) {
  const lines = travellers.flatMap(({ board, rows }) => {
    const row = rows.find((each) => each.ns === pair || each.ew === pair);
    return row ? [lineOf(facts, board, row, topOf(rows), row.ns === pair)] : [];
  });
  lines.sort((one, other) => one.round - other.round || one.board - other.board);
  let [earned, tops] = [0, 0];
  return lines.map(({ earned: more, top, ...line }) => {
    earned += more;
    tops += 100 * top;
    return { ...line, soFar: percentText(earned, tops), total: { earned, tops } };
  });
}

/** As in the ranking, a ruling earns its percentage of the top. */
function lineOf(facts, board, row, top, isNorthSouth) {
  const round = rowOf(facts, row.table, board)?.round ?? 0;
  const place = { round, board, against: isNorthSouth ? row.ew : row.ns, top };
  if (row.ruling) {
    const percent = row.ruling[isNorthSouth ? 0 : 1];
    return { ...place, result: null, score: null, points: null, percent: String(percent), earned: percent * top };
  }
  const points = isNorthSouth ? row.points : top - row.points;
  return {
    ...place,
    result: row.result,
    score: isNorthSouth ? row.score : -row.score || 0,
    points: top ? points : null,
    percent: percentText(points, top),
    earned: 100 * points,
  };
}

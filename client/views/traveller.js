// A board's traveller: a row for each result that the user may see, with its score, percentage and matchpoints.

import { element, table } from "../dom.js";
import { playersText } from "../people.js";
import { percentText, topOf } from "../percentages.js";
import { scoreOfSide } from "../scoring.js";
import { texts } from "../texts.js";
import { pairMark, resultMark } from "./marks.js";

/**
 * @param {import("../public_facts.js").Facts} facts
 * @param {{rows: import("../messages.js").TravellerRow[], board: number}} traveller
 * @param {string|null} ownPair
 */
export function travellerView(facts, traveller, ownPair) {
  if (traveller.rows.length === 0) return element("p", {}, texts.traveller.empty);
  const top = topOf(traveller.rows);
  return [
    table(
      texts.traveller.caption(traveller.board),
      texts.traveller.heads,
      traveller.rows.map((row) => rowView(facts, row, top, ownPair)),
      { class: "traveller" },
    ),
    element("p", { class: "note" }, top ? texts.traveller.note(top) : texts.traveller.first),
  ];
}

function rowView(facts, row, top, ownPair) {
  const own = row.ns === ownPair || row.ew === ownPair;
  const head = element("th", { scope: "row", class: own ? "own" : null, "data-table": row.table }, row.table);
  const place = [head, pairMark(facts, row.ns), pairMark(facts, row.ew)];
  if (row.ruling) {
    return [...place, element("td", { colspan: 3, class: "ruling" }, texts.traveller.ruling), ...row.ruling, "", ""];
  }
  const points = [row.points, top - row.points];
  return [
    ...place,
    resultMark(row.result),
    scoreOfSide(row.score, "NS"),
    scoreOfSide(row.score, "EW"),
    ...points.map((each) => (top ? percentText(each, top) : texts.noTop)),
    ...points.map((each) => (top ? each : texts.noTop)),
  ];
}

/** The rows of a traveller for a spreadsheet. */
export function travellerLines(facts, { board, rows }) {
  const top = topOf(rows);
  return rows.map(({ table: number, ns, ew, ruling, result, score, points }) => {
    const [cell, empty] = [[board, number, ns, ew], Array(7).fill("")];
    const players = [ns, ew].map((pair) => playersText(facts, pair));
    if (ruling) return [...cell, texts.traveller.ruling, ...empty, ...ruling, ...players];
    return [...cell, ...outcomeFields(result), score, points, top - points, "", "", ...players];
  });
}

/** The contract in one field, and its parts in four. */
function outcomeFields(result) {
  if (result === "pass") return [texts.passedOut, "", "", "", ""];
  const [strain, doubled] = [texts.strainLetter[result.strain], texts.doubledMark[result.doubled]];
  return [`${result.level}${strain}${doubled} ${result.by}`, result.level, strain, doubled, result.by];
}

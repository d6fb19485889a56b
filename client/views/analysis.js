// A double-dummy table: below a board, in the corner of its hand record, and in a spreadsheet.

import { element, table } from "../dom.js";
import { texts } from "../texts.js";
import { strainMark } from "./marks.js";

const declarers = ["N", "S", "E", "W"];
const strains = ["N", "S", "H", "D", "C"];
const placeOfStrain = { S: 0, H: 1, D: 2, C: 3, N: 4 };

const numbersOf = (tricks, declarer) => strains.map((strain) => tricks[declarer][placeOfStrain[strain]]);

function tricksTable({ tricks }, nameOf, more) {
  const heads = [texts.board.declarer, ...strains.map((strain) => element("th", { scope: "col" }, strainMark(strain)))];
  const rows = declarers.map((declarer) => [nameOf(declarer), ...numbersOf(tricks, declarer)]);
  return table(texts.board.analysisCaption, heads, rows, more);
}

/** @param {import("../messages.js").Analysis} analysis */
export function analysisView(analysis) {
  if (analysis.tricks === null) return element("p", {}, texts.board.pending);
  return [
    tricksTable(analysis, (declarer) => texts.place[declarer], { class: "analysis" }),
    element("p", { class: "note" }, texts.board.analysisNote),
  ];
}

/** What each declarer makes, as small as a hand record has it. */
export function makesView(analysis) {
  if (analysis.tricks === null) return element("p", { class: "note" }, texts.board.pending);
  return tricksTable(analysis, (declarer) => declarer, { class: "makes" });
}

/** The heads of the fields of `analysisFields`: as "dd_n_nt", what North makes in no trump. */
export const analysisHeads = declarers.flatMap((declarer) =>
  strains.map((strain) => `dd_${declarer}_${texts.strainLetter[strain]}`.toLowerCase()));

/** A double-dummy table for a spreadsheet: empty fields where there is none yet. */
export function analysisFields(tricks) {
  return declarers.flatMap((declarer) => (tricks ? numbersOf(tricks, declarer) : strains.map(() => "")));
}

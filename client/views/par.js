// A board's par: what it comes to where each side sees all the cards and bids for its best. The second edition tells it, to whoever may
// see the double-dummy table; where it isn't told nothing is said of it, since that table says why.

import { element } from "../dom.js";
import { ask } from "../messages.js";
import { texts } from "../texts.js";
import { resultMark } from "./marks.js";

export const parNeeds = ({ edition }, board) => (edition === 2 ? [ask.par(board)] : []);

/** @returns {{result: import("../messages.js").Result, score: number}|null} null until it is known */
function parOf(page, board) {
  const { result, score } = page.answer(ask.par(board))?.value ?? {};
  return (result ?? null) === null || !Number.isInteger(score) ? null : { result, score };
}

export function parView(page, board) {
  const par = parOf(page, board);
  return par && element("p", { class: "par" }, texts.par.label, " ", resultMark(par.result), texts.par.worth(par.score));
}

export const parHeads = ({ edition }) => (edition === 2 ? texts.par.csvHeads : []);

/** A par for a spreadsheet: empty fields where there is none yet. */
export function parFields(page, board) {
  const { facts } = page.state;
  if (facts.edition !== 2) return [];
  const par = parOf(page, board);
  return par ? [texts.resultInWords(par.result), par.score] : ["", ""];
}

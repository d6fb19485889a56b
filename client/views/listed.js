// Lists of boards that are whole: an answer has 64 boards at most, so the next ones are asked for until none follows.

import { ask } from "../messages.js";
import { answerView } from "./denial.js";

const lastBoard = 255;

/** The queries of a list as far as they are known, each with its answer's value: the last one has none until it has come. */
function partsOf(page, filter) {
  const parts = [];
  let from = 1;
  while (from) {
    const query = ask.list(filter, from);
    const value = page.answer(query)?.value ?? null;
    parts.push({ query, value });
    const next = value?.more ? value.boards?.at?.(-1) + 1 : 0;
    from = next > from && next <= lastBoard ? next : 0;
  }
  return parts;
}

const boardsIn = (parts) => parts.flatMap(({ value }) => value?.boards ?? []);
const isWhole = (parts) => parts.at(-1).value !== null;

/** What is to be asked for so that the list gets whole. */
export const listNeeds = (page, filter) => partsOf(page, filter).map(({ query }) => query);

/** The boards of a list that were told until now. */
export const boardsSoFar = (page, filter) => boardsIn(partsOf(page, filter));

/** @returns {number[]|null} the boards of a list, or null until all of them were told */
export function wholeList(page, filter) {
  const parts = partsOf(page, filter);
  return isWhole(parts) ? boardsIn(parts) : null;
}

/**
 * What a list is answered, once it is whole; a denial, an error and that it isn't whole yet are drawn here.
 * @param {(boards: number[]) => import("../dom.js").Content} show
 */
export function listView(page, filter, show) {
  const parts = partsOf(page, filter);
  return answerView(page, parts.at(-1).query, () => show(boardsIn(parts)));
}

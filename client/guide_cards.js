// Guide cards: where a pair goes in each round, and what comes to a table.

import { boardsOf, isIn, opponentsIn, sideIn } from "./movement.js";
import { playersText } from "./people.js";

/** @typedef {import("./public_facts.js").Facts} Facts */

/**
 * @typedef {object} PairLine
 * @property {number} round
 * @property {number} table 0 where the pair sits out the round, and then the rest is empty
 * @property {import("./movement.js").Side|""} side
 * @property {string} against
 * @property {number[]} boards
 */
/**
 * @typedef {object} TableLine
 * @property {number} round
 * @property {string} ns empty where nobody plays at the table in the round, as is the rest
 * @property {string} ew
 * @property {number[]} boards
 * @property {number[]} others the tables that play the same boards in the same round, which are shared or there twice
 */

const rounds = (facts) => Array.from({ length: facts.rounds }, (_, index) => index + 1);
export const tablesOf = (facts) => Array.from({ length: facts.tables }, (_, index) => index + 1);

/**
 * @param {Facts} facts
 * @returns {PairLine[]} a line a round
 */
export function cardOfPair(facts, pair) {
  return rounds(facts).map((round) => {
    const row = facts.rows.find((each) => each.round === round && isIn(each, pair));
    if (!row) return { round, table: 0, side: "", against: "", boards: [] };
    const boards = boardsOf(row.set, facts.per_set);
    return { round, table: row.table, side: sideIn(row, pair), against: opponentsIn(row, pair), boards };
  });
}

/**
 * @param {Facts} facts
 * @returns {TableLine[]} a line a round
 */
export function cardOfTable(facts, table) {
  return rounds(facts).map((round) => {
    const row = facts.rows.find((each) => each.round === round && each.table === table);
    if (!row) return { round, ns: "", ew: "", boards: [], others: [] };
    const others = facts.rows.filter((each) => each.round === round && each.set === row.set && each !== row);
    return { round, ns: row.ns, ew: row.ew, boards: boardsOf(row.set, facts.per_set), others: others.map((each) => each.table) };
  });
}

/** What all cards of pairs say, for a spreadsheet: a line for each pair in each round. */
export function linesOfPairs(facts) {
  return facts.pairs.flatMap((pair) => cardOfPair(facts, pair).map(({ round, table, side, against, boards }) =>
    [pair, playersText(facts, pair), round, table || "", side, against, playersText(facts, against), boards.at(0), boards.at(-1)]));
}

/** What all cards of tables say, for a spreadsheet: a line for each table in each round. */
export function linesOfTables(facts) {
  return tablesOf(facts).flatMap((table) => cardOfTable(facts, table).map(({ round, ns, ew, boards, others }) =>
    [table, round, ns, playersText(facts, ns), ew, playersText(facts, ew), boards.at(0), boards.at(-1), others.join(" ")]));
}

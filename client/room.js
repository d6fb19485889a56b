// The room as a director sees it: each table with the boards of the rounds so far, and how far each of them is.

import { boardsOf } from "./movement.js";
import { isHeld, isLive } from "./public_facts.js";

/** @typedef {"awaited"|"late"|"result"|"ruled"} CellState late: awaited of an earlier round than the present one */
/** @typedef {{table: number, board: number, state: CellState, isHeld: boolean}} RoomCell */

/**
 * @param {import("./public_facts.js").Facts} facts
 * @param {(table: number, board: number) => boolean} isRuled
 * @returns {{rounds: number[], tables: {table: number, rounds: RoomCell[][]}[]}} the rounds so far, the present one first; for each
 *   table its cells of each of them
 */
export function roomOf(facts, isRuled) {
  const rounds = [...new Set(facts.rows.map((row) => row.round))].filter((round) => round <= facts.round).sort((one, other) => other - one);
  const tables = [...new Set(facts.rows.map((row) => row.table))].sort((one, other) => one - other);
  const cellsOf = (table, round) => facts.rows
    .filter((row) => row.table === table && row.round === round)
    .flatMap((row) => boardsOf(row.set, facts.per_set).map((board) => cellOf(facts, row, board, isRuled)));
  return { rounds, tables: tables.map((table) => ({ table, rounds: rounds.map((round) => cellsOf(table, round)) })) };
}

/** @returns {RoomCell} */
function cellOf(facts, { table, round }, board, isRuled) {
  const awaited = round < facts.round || facts.phase !== "Running" ? "late" : "awaited";
  const state = isLive(facts, table, board) ? (isRuled(table, board) ? "ruled" : "result") : awaited;
  return { table, board, state, isHeld: isHeld(facts, board) };
}

/** The boards on which some table has a result: a ruling may be among them. */
export const boardsWithResults = (facts) => facts.boards.filter((board) => (facts.live[board - 1] ?? []).length > 0);

// What the page works out from a status alone: what every member may see.

import { boardsOf, changesSides, isIn, pairsOf, placeIn, rowOfCell, rowOfPair, rowsOf, rowsOfBoard, setsOf } from "./movement.js";

/**
 * A status with the movement that follows from it, its boards and its pairs.
 * @param {import("./messages.js").Status} status
 */
export function publicFacts(status) {
  const rows = rowsOf(status);
  const boards = Array.from({ length: setsOf(status) * status.per_set }, (_, index) => index + 1);
  const shown = new Map((status.names ?? []).filter(Array.isArray));
  return { edition: 1, embargo: false, ...status, rows, boards, pairs: pairsOf(status, rows), changesSides: changesSides(rows), shown };
}

/** @typedef {ReturnType<typeof publicFacts>} Facts */

/** @param {Facts} facts */
export const isHeld = (facts, board) => facts.held.includes(board);

export const isLive = (facts, table, board) => (facts.live[board - 1] ?? []).includes(table);

export const isScheduled = (facts, table, board) => rowOf(facts, table, board) !== undefined;

/** The tables that are scheduled to play a board and have no result on it, the least first. */
export function awaitedTables(facts, board) {
  const tables = rowsOfBoard(facts.rows, board, facts.per_set).map((row) => row.table);
  return tables.filter((table) => !isLive(facts, table, board));
}

export const isComplete = (facts, board) => awaitedTables(facts, board).length === 0;

/** @returns {{pair: string, place: import("./messages.js").Place}|null} where a user sits */
export function seatOf(facts, name) {
  const seat = facts.seats.find(([user]) => user === name);
  return seat ? { pair: seat[1], place: seat[2] } : null;
}

/** The names by which those who sit in a pair sign in, in the order of the accounts. */
export const playersOf = (facts, pair) => facts.seats.filter((seat) => seat[1] === pair).map(([name]) => name);

/** The row in which a table plays a board, in whatever round. */
export const rowOf = (facts, table, board) => rowOfCell(facts.rows, table, board, facts.per_set);

/** The table where a pair plays a board, or 0 where it doesn't play it. */
export const tableOfPair = (facts, pair, board) => rowOfPair(facts.rows, pair, board, facts.per_set)?.table ?? 0;

/** A board's dealer and vulnerability. */
export function marksOf(facts, board) {
  const [dealer, vulnerability] = (facts.marks[board - 1] ?? " ").split(" ");
  return { dealer, vulnerability };
}

/**
 * How a board stands for a pair that plays it.
 * @returns {"held"|"to_play"|"waits"|"complete"}
 */
export function boardStateOf(facts, table, board) {
  if (isHeld(facts, board)) return "held";
  if (!isLive(facts, table, board)) return "to_play";
  return isComplete(facts, board) ? "complete" : "waits";
}

/** The rows of a round, each with its boards. */
export function roundOf(facts, round) {
  return facts.rows.filter((row) => row.round === round).map((row) => ({
    ...row,
    boards: boardsOf(row.set, facts.per_set),
  }));
}

/** The boards that a table is to play or has played up to the present round, those of the present round first. */
export function cellsOfTable(facts, table) {
  return facts.rows
    .filter((row) => row.table === table && row.round <= facts.round)
    .sort((one, other) => other.round - one.round)
    .flatMap((row) => boardsOf(row.set, facts.per_set).map((board) => ({
      ...row,
      board,
      live: isLive(facts, table, board),
    })));
}

/** The tables that play in the present round, or have still to give a result of an earlier one, the least first. */
export function tablesToScore(facts) {
  const now = facts.rows.filter((row) => row.round === facts.round);
  const tables = new Set([...now, ...awaitedCells(facts)].map((row) => row.table));
  return [...tables].sort((one, other) => one - other);
}

/** What is still awaited of the rounds so far, of the earliest first: a table and a board each. */
export function awaitedCells(facts) {
  return facts.rows.filter((row) => row.round <= facts.round).flatMap((row) =>
    boardsOf(row.set, facts.per_set).filter((board) => !isLive(
      facts,
      row.table,
      board,
    )).map((board) => ({ ...row, board })));
}

/**
 * The cell that is to be scored next elsewhere: at the first table after this one, round the room, that owes a result.
 * @returns {{table: number, board: number}|undefined}
 */
export function nextCellElsewhere(facts, table) {
  const distance = (cell) => (cell.table - table + facts.tables) % facts.tables;
  const [next] = awaitedCells(facts).filter((cell) => cell.table !== table).sort((one, other) => distance(one) - distance(other));
  return next && cellsOfTable(facts, next.table).find((cell) => !cell.live);
}

/** On how many boards a pair has a result so far. */
export const boardsPlayed = (facts, pair) => facts.rows.filter((row) => isIn(row, pair))
  .flatMap((row) => boardsOf(row.set, facts.per_set).filter((board) => isLive(facts, row.table, board))).length;

/** Where a user who has a seat plays in the present round: the table and the own place there, or null where the pair sits out. */
export function seatNow(facts, { pair, place }) {
  const row = facts.rows.find((each) => each.round === facts.round && isIn(each, pair));
  return row ? { table: row.table, place: placeIn(row, pair, place) } : null;
}

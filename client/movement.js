// Who plays which board, where and when. A status whose session named its movement tells it row by row. In any other it is
// the plain Mitchell (docs/PROTOCOL.md): NS pair 1 stays at table 1, the EW pairs move up a table each round and the boards
// down; with an even number of tables the EW pairs skip a table at half time. Where a pair is absent, whoever would meet it
// sits out. A pair is named by the place where it begins, and may sit on the other side later.

import { sideOf } from "./cards.js";

/** @typedef {{round: number, table: number, set: number, ns: string, ew: string}} Row all counted from 1 */
/** @typedef {"NS"|"EW"} Side */

/**
 * @param {import("./messages.js").Status} status
 * @returns {Row[]} by round, then by table
 */
export function rowsOf({ movement, tables, rounds, absent }) {
  if (!movement) return mitchellOf(tables, rounds, absent);
  const rows = movement.map(([round, table, set, ns, ew]) => ({ round, table, set, ns, ew }));
  return rows.sort((one, other) => one.round - other.round || one.table - other.table);
}

/**
 * @param {number} tables
 * @param {number} rounds
 * @param {string} [absent] the pair that isn't there, if one isn't
 * @returns {Row[]} by round, then by table
 */
export function mitchellOf(tables, rounds, absent) {
  const rows = [];
  for (let round = 0; round < rounds; round += 1) {
    for (let table = 0; table < tables; table += 1) rows.push(mitchellRow(tables, round, table));
  }
  return rows.filter((row) => row.ns !== absent && row.ew !== absent);
}

function mitchellRow(tables, round, table) {
  const skip = tables % 2 === 0 && round >= tables / 2 ? 1 : 0;
  const eastWest = (table - round - skip + 2 * tables) % tables;
  return {
    round: round + 1,
    table: table + 1,
    set: ((table + round) % tables) + 1,
    ns: `NS${table + 1}`,
    ew: `EW${eastWest + 1}`,
  };
}

/**
 * How many sets of boards there are. No row tells of a set that an absent pair alone would have played, so where rows are
 * told, the boards of the status are counted.
 * @param {import("./messages.js").Status} status
 */
export const setsOf = ({ movement, tables, live, per_set: perSet }) => (movement ? live.length / perSet : tables);

/** The side for which a pair is named: where it begins. */
export const namedSideOf = (pair) => (pair.startsWith("NS") ? "NS" : "EW");

/** The number that clubs give a pair of a movement in which pairs change sides: NS3 is 3, and at five tables EW3 is 8. */
export const numberOfPair = (tables, pair) => Number(pair.slice(2)) + (namedSideOf(pair) === "NS" ? 0 : tables);

const byNumber = (one, other) => Number(one.slice(2)) - Number(other.slice(2));

/**
 * The pairs of the section but for one that is absent: NS before EW, then by number. In the Mitchell each table has its two;
 * in another movement they are those that play, and any other to which a seat was given.
 * @param {import("./messages.js").Status} status
 * @param {Row[]} rows what is played in it
 * @returns {string[]}
 */
export function pairsOf({ movement, tables, absent, seats }, rows) {
  const numbers = Array.from({ length: tables }, (_, index) => index + 1);
  const found = movement
    ? [...rows.flatMap(({ ns, ew }) => [ns, ew]), ...seats.map(([, pair]) => pair)]
    : numbers.flatMap((number) => [`NS${number}`, `EW${number}`]);
  const there = [...new Set(found)].filter((pair) => pair !== absent).sort(byNumber);
  return ["NS", "EW"].flatMap((side) => there.filter((pair) => namedSideOf(pair) === side));
}

/** Whether the pair plays in the row. */
export const isIn = (row, pair) => row.ns === pair || row.ew === pair;

/** The side on which a pair sits in a row that it plays. */
export const sideIn = (row, pair) => (row.ns === pair ? "NS" : "EW");

export const opponentsIn = (row, pair) => (row.ns === pair ? row.ew : row.ns);

/** Whether some pair sits North-South in one round and East-West in another: then all pairs are compared with one another. */
export function changesSides(rows) {
  const northSouth = new Set(rows.map((row) => row.ns));
  return rows.some((row) => northSouth.has(row.ew));
}

/**
 * The side on which a pair sits all the time where no pair changes its side, or for which it is named where it sits out
 * all rounds.
 * @returns {Side}
 */
export function sideOfPair(rows, pair) {
  const row = rows.find((each) => isIn(each, pair));
  return row ? sideIn(row, pair) : namedSideOf(pair);
}

/** Whether a pair sits in some round on the other side than that for which it is named. */
export const isTurned = (rows, pair) => rows.some((row) => isIn(row, pair) && sideIn(row, pair) !== namedSideOf(pair));

const across = { N: "E", S: "W", E: "N", W: "S" };

/** Where a player sits in a row: whoever begins North sits East where the pair sits the other way round, and South West. */
export const placeIn = (row, pair, place) => (sideIn(row, pair) === sideOf(place) ? place : across[place]);

const setOf = (board, perSet) => Math.ceil(board / perSet);

/** @returns {number[]} the boards of a set */
export function boardsOf(set, perSet) {
  return Array.from({ length: perSet }, (_, index) => (set - 1) * perSet + index + 1);
}

/** @returns {Row[]} the rows in which a board is played, by table */
export function rowsOfBoard(rows, board, perSet) {
  return rows.filter((row) => row.set === setOf(board, perSet)).sort((one, other) => one.table - other.table);
}

/** @returns {Row|undefined} the row in which a pair plays a board */
export function rowOfPair(rows, pair, board, perSet) {
  return rowsOfBoard(rows, board, perSet).find((row) => isIn(row, pair));
}

/** @returns {Row|undefined} the row in which a table plays a board, in whatever round */
export function rowOfCell(rows, table, board, perSet) {
  return rowsOfBoard(rows, board, perSet).find((row) => row.table === table);
}

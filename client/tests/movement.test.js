// Movements whose rows a status tells, beside the Mitchell that it doesn't: what follows from them, and how denials are checked.
import assert from "node:assert/strict";
import { test } from "node:test";
import { checkDenial } from "../denials.js";
import { ask } from "../messages.js";
import { changesSides, isTurned, mitchellOf, placeIn, rowOfPair, rowsOfBoard, sideIn, sideOfPair } from "../movement.js";
import { awaitedTables, boardStateOf, cellsOfTable, isComplete, isScheduled, publicFacts, roundOf, rowOf } from "../public_facts.js";
import { seatNow, tablesToScore } from "../public_facts.js";
import { howell, howellStatus, mitchell, statusOfList, withoutEw3 } from "./movements.js";

const howells = ["howell_3", "howell_4", "howell_5", "howell_6", "howell_7", "howell_8"];
const lists = [...howells, "mitchell_7_switched", "share_and_relay_8", "share_and_relay_10", "web_14_13"];

test("who plays what is what the status's rows tell", () => {
  const facts = howell();
  const boards = [1, 2, 3, 4, 5];
  const playedIn = boards.map((board) => rowsOfBoard(facts.rows, board, 1).map(({ table, round }) => [table, round]));
  assert.deepEqual(playedIn, [
    [[1, 1], [2, 1], [3, 1]],
    [[1, 2], [2, 4], [3, 3]],
    [[1, 5], [2, 3], [3, 2]],
    [[1, 3], [2, 5], [3, 4]],
    [[1, 4], [2, 2], [3, 5]],
  ]);
  const cells = (pair) => boards.map((board) => rowOfPair(facts.rows, pair, board, 1));
  assert.deepEqual(cells("NS1").map(({ table, round }) => [table, round]), [[1, 1], [1, 2], [1, 5], [1, 3], [1, 4]]);
  assert.deepEqual(cells("EW1").map(({ table, round }) => [table, round]), [[1, 1], [2, 4], [2, 3], [2, 5], [2, 2]]);
  assert.deepEqual(boards.filter((board) => sideIn(cells("NS1")[board - 1], "NS1") === "EW"), [2, 5]);
  assert.deepEqual(boards.filter((board) => sideIn(cells("EW1")[board - 1], "EW1") === "NS"), [2, 4, 5]);
});

test("where no row is left, nobody plays: a status that tells its rows is no Mitchell", () => {
  const facts = howell({ movement: [], absent: "NS1", seats: [] });
  assert.deepEqual([facts.rows, facts.pairs, facts.boards], [[], [], [1, 2, 3, 4, 5]]);
});

test("there are as many boards as sets times the boards in a set, and not as tables", () => {
  assert.deepEqual(howell().boards, [1, 2, 3, 4, 5]);
  const sets = { howell_5: 9, mitchell_7_switched: 7, share_and_relay_8: 8, web_14_13: 13 };
  for (const [name, count] of Object.entries(sets)) {
    for (const perSet of [1, 2]) {
      const { boards } = publicFacts(statusOfList(name, { per_set: perSet }));
      assert.deepEqual([boards.length, boards.at(-1)], [count * perSet, count * perSet], `${name}, ${perSet} a set`);
    }
  }
  assert.equal(mitchell(6, 5, { per_set: 3 }).boards.length, 18);
});

test("a set that an absent pair alone would have played is one, and nobody plays its boards", () => {
  const facts = howell({ live: [[], [], [], [], [], []], absent: "EW7" });
  assert.deepEqual(facts.boards, [1, 2, 3, 4, 5, 6]);
  assert.deepEqual(rowsOfBoard(facts.rows, 6, 1), []);
  assert.equal(isComplete(facts, 6), true);
});

test("the pairs are those that the rows seat, and one that is absent isn't", () => {
  assert.deepEqual(howell().pairs, ["NS1", "NS2", "NS3", "EW1", "EW2", "EW3"]);
  const half = withoutEw3();
  assert.deepEqual(half.pairs, ["NS1", "NS2", "NS3", "EW1", "EW2"]);
  assert.deepEqual(half.boards.map((board) => awaitedTables(half, board)), [[1, 2], [2, 3], [1, 3], [1, 2], [1, 2]]);
  const rover = [[1, 1, 1, "NS1", "EW12"], [1, 2, 2, "NS10", "NS2"]];
  assert.deepEqual(howell({ movement: rover, seats: [] }).pairs, ["NS1", "NS2", "NS10", "EW12"]);
  assert.deepEqual(howell({ movement: rover }).pairs, ["NS1", "NS2", "NS10", "EW1", "EW12"], "a pair that somebody sits in");
  for (const [absent, tables] of [["NS2", 3], ["EW4", 4]]) {
    const { pairs } = mitchell(tables, 1, { absent });
    assert.deepEqual([pairs.length, pairs.includes(absent)], [2 * tables - 1, false], `a Mitchell without ${absent}`);
  }
});

test("a Mitchell that is told row by row is the one that isn't", () => {
  for (const [tables, rounds] of [[3, 3], [6, 5], [7, 4]]) {
    const rows = mitchellOf(tables, rounds).map(({ round, table, set, ns, ew }) => [round, table, set, ns, ew]);
    const bySet = rows.toSorted((one, other) => one[2] - other[2] || one[1] - other[1]);
    const [told, untold] = [mitchell(tables, rounds, { movement: bySet }), mitchell(tables, rounds)];
    for (const part of ["rows", "boards", "pairs", "changesSides"]) assert.deepEqual(told[part], untold[part], `${part} of ${tables} tables`);
  }
});

test("rows stand by round and table, however the status has them", () => {
  const facts = howell({ movement: howellStatus.movement.toReversed() });
  assert.deepEqual(facts.rows, howell().rows);
  assert.deepEqual(roundOf(facts, 3), [
    { round: 3, table: 1, set: 4, ns: "NS1", ew: "EW2", boards: [4] },
    { round: 3, table: 2, set: 3, ns: "EW3", ew: "EW1", boards: [3] },
    { round: 3, table: 3, set: 2, ns: "NS3", ew: "NS2", boards: [2] },
  ]);
});

test("pairs change sides in a Howell and where the last round is switched, and in no Mitchell, share and relay or web", () => {
  const changing = lists.filter((name) => publicFacts(statusOfList(name)).changesSides);
  assert.deepEqual(changing, [...howells, "mitchell_7_switched"]);
  for (let tables = 3; tables <= 16; tables += 1) assert.equal(changesSides(mitchellOf(tables, tables - 1)), false);
});

test("a pair's side is where it sits, whatever its name", () => {
  const { rows } = howell({ movement: [[1, 1, 1, "NS1", "NS2"], [1, 2, 2, "EW1", "EW2"], [2, 1, 2, "NS1", "EW2"]] });
  assert.equal(changesSides(rows), false);
  assert.deepEqual(["NS1", "NS2", "EW1", "EW2"].map((pair) => sideOfPair(rows, pair)), ["NS", "EW", "NS", "EW"]);
  assert.deepEqual(["NS1", "NS2", "EW1", "EW2"].map((pair) => isTurned(rows, pair)), [false, true, true, false]);
  assert.deepEqual(["NS9", "EW9"].map((pair) => sideOfPair(rows, pair)), ["NS", "EW"], "a pair that sits out all rounds");
});

test("whoever begins North sits East where the pair sits the other way round, and South West; and back", () => {
  const row = { ns: "EW3", ew: "NS1" };
  assert.deepEqual(["N", "S"].map((place) => placeIn(row, "NS1", place)), ["E", "W"]);
  assert.deepEqual(["E", "W"].map((place) => placeIn(row, "EW3", place)), ["N", "S"]);
  assert.deepEqual(["N", "S"].map((place) => placeIn({ ns: "NS1", ew: "EW3" }, "NS1", place)), ["N", "S"]);
  const seat = { pair: "NS1", place: "N" };
  const nowIn = (round, facts = howell({ round })) => seatNow(facts, seat);
  assert.deepEqual([1, 2, 5].map((round) => nowIn(round)), [{ table: 1, place: "N" }, { table: 1, place: "E" }, { table: 1, place: "N" }]);
  assert.equal(nowIn(2, withoutEw3({ round: 2 })), null);
});

test("a cell's row is of the round in which it is played, however much later", () => {
  const facts = howell();
  const at = (table, board) => rowOf(facts, table, board);
  assert.deepEqual(at(2, 2), { round: 4, table: 2, set: 2, ns: "EW1", ew: "EW2" });
  assert.deepEqual(at(1, 3), { round: 5, table: 1, set: 3, ns: "NS1", ew: "NS2" });
  assert.deepEqual([isScheduled(facts, 2, 5), isScheduled(facts, 2, 6), isScheduled(facts, 4, 1)], [true, false, false]);
  assert.equal(rowOf(mitchell(5, 5), 2, 1).ew, "EW3");
});

test("a table that plays nothing in a round is still there to be scored while it owes a result", () => {
  const live = (changes) => ({ live: [[], [], [], [], []].map((tables, index) => changes[index + 1] ?? tables) });
  const second = (changes) => withoutEw3({ round: 2, ...live(changes) });
  assert.deepEqual(roundOf(second({}), 2).map(({ table }) => table), [2, 3]);
  assert.deepEqual(tablesToScore(second({})), [1, 2, 3]);
  assert.deepEqual(tablesToScore(second({ 1: [1, 2] })), [2, 3]);
  assert.deepEqual(tablesToScore(howell({ round: 5 })), [1, 2, 3]);
  assert.deepEqual(tablesToScore(howell(live({ 1: [1, 2, 3] }))), [1, 2, 3], "all that play in the round have given their results");
  assert.deepEqual(cellsOfTable(second({}), 1).map(({ board, round }) => [board, round]), [[1, 1]]);
});

test("denials of a Howell are checked by its rows", () => {
  const denied = (rule, board, table) => ({ rule, board, table, why: "" });
  const verdict = (facts, name, query, denial) => checkDenial(facts, name, query, denial).verdict;
  assert.equal(verdict(howell(), "n1", ask.board(2), denied(5, 2, 1)), "holds");
  assert.equal(verdict(howell(), "e1", ask.board(2), denied(5, 2, 2)), "holds");
  assert.equal(verdict(howell(), "e1", ask.board(2), denied(5, 2, 1)), "contradicted");
  assert.equal(verdict(howell(), "s", ask.board(2), denied(8, 2, 1)), "roles");
  const later = howell({ round: 2, live: [[1, 2, 3], [1], [], [], []] });
  assert.equal(verdict(later, "e1", ask.board(2), denied(5, 2, 2)), "holds", "EW1 has still to play it, in round 4");
  assert.equal(verdict(later, "n1", ask.board(2), denied(5, 2, 1)), "contradicted");
  assert.equal(verdict(later, "s", ask.board(2), denied(8, 2, 2)), "roles");
  assert.equal(verdict(later, "n1", ask.play(2, 2), denied(10, 2, 2)), "holds");
  assert.equal(boardStateOf(later, 1, 2), "waits");
});

// The movement and what follows from a status.
import assert from "node:assert/strict";
import { test } from "node:test";
import { mitchellOf, rowsOfBoard } from "../movement.js";
import { awaitedCells, awaitedTables, boardStateOf, cellsOfTable, isComplete } from "../public_facts.js";
import { marksOf, playersOf, publicFacts, seatOf, tableOfPair } from "../public_facts.js";

/** The movement as docs/SESSION.md tells it, by moving pairs and boards about. */
function movedAbout(tables, rounds) {
  let pairs = Array.from({ length: tables }, (_, index) => index + 1);
  let sets = [...pairs];
  const rows = [];
  for (let round = 1; round <= rounds; round += 1) {
    for (let table = 1; table <= tables; table += 1) {
      rows.push({ round, table, set: sets[table - 1], ns: `NS${table}`, ew: `EW${pairs[table - 1]}` });
    }
    const steps = tables % 2 === 0 && round === tables / 2 ? 2 : 1;
    for (let step = 0; step < steps; step += 1) pairs = [pairs.at(-1), ...pairs.slice(0, -1)];
    sets = [...sets.slice(1), sets[0]];
  }
  return rows;
}

test("the movement is the Mitchell that docs/SESSION.md tells of", () => {
  for (let tables = 3; tables <= 16; tables += 1) {
    const most = tables % 2 ? tables : tables - 1;
    for (let rounds = 1; rounds <= most; rounds += 1) {
      assert.deepEqual(mitchellOf(tables, rounds), movedAbout(tables, rounds), `${tables} tables, ${rounds} rounds`);
    }
  }
});

test("nobody meets an opponent or a set twice", () => {
  for (const [tables, rounds] of [[3, 3], [8, 7], [16, 15]]) {
    const rows = mitchellOf(tables, rounds);
    for (const side of ["ns", "ew"]) {
      assert.equal(
        new Set(rows.map((row) => `${row[side]} ${row.set}`)).size,
        rows.length,
        `${side}, ${tables} tables`,
      );
    }
    assert.equal(new Set(rows.map((row) => `${row.ns} ${row.ew}`)).size, rows.length);
  }
});

/** The status of docs/PROTOCOL.md's example. */
const status = {
  held: [2],
  live: [[1, 3], [], [3]],
  marks: ["N none", "E ns", "S ew"],
  per_set: 1,
  phase: "Running",
  round: 2,
  rounds: 3,
  seats: [["n1", "NS1", "N"], ["n2", "NS2", "S"]],
  tables: 3,
};
const facts = publicFacts(status);

test("the pairs at a table are those that the protocol's example names", () => {
  const pairs = rowsOfBoard(facts.rows, 1, 1).map(({ table, ns, ew }) => [table, ns, ew]);
  assert.deepEqual(pairs, [[1, "NS1", "EW1"], [2, "NS2", "EW3"], [3, "NS3", "EW2"]]);
});

test("where a pair is absent, whoever would meet it sits out", () => {
  const half = publicFacts({ ...status, absent: "EW3" });
  const cells = half.rows.map(({ round, table, set }) => [round, table, set]);
  assert.deepEqual(cells, [[1, 1, 1], [1, 2, 2], [2, 2, 3], [2, 3, 1], [3, 1, 3], [3, 3, 2]]);
  assert.equal(tableOfPair(half, "NS1", 2), 0);
  assert.deepEqual(awaitedTables(half, 1), []);
  const oneRound = publicFacts({ ...status, absent: "EW3", rounds: 1 });
  assert.equal(isComplete(oneRound, 3), true);
});

test("a status that names no edition is of the first, without an embargo", () => {
  assert.deepEqual([facts.edition, facts.embargo], [1, false]);
  const second = publicFacts({ ...status, edition: 2, embargo: true });
  assert.deepEqual([second.edition, second.embargo], [2, true]);
});

test("what is awaited is told by the tables without a result", () => {
  assert.deepEqual([1, 2, 3].map((board) => awaitedTables(facts, board)), [[2], [1, 2, 3], [1, 2]]);
  assert.equal(isComplete(facts, 1), false);
  assert.deepEqual(awaitedCells(facts).map(({ table, board }) => [table, board]), [[2, 2], [1, 2], [2, 3]]);
});

test("a board stands for a pair as its own table and the others do", () => {
  const stateOf = (changes, table, board) => boardStateOf(publicFacts({ ...status, ...changes }), table, board);
  assert.equal(stateOf({}, 1, 1), "waits");
  assert.equal(stateOf({ live: [[1, 2, 3], [], []] }, 1, 1), "complete");
  assert.equal(stateOf({}, 2, 1), "to_play");
  assert.equal(stateOf({}, 1, 2), "held");
});

test("seats, players and marks are those of the status", () => {
  assert.deepEqual(seatOf(facts, "n2"), { pair: "NS2", place: "S" });
  assert.equal(seatOf(facts, "k"), null);
  assert.deepEqual(playersOf(facts, "NS1"), ["n1"]);
  assert.deepEqual(marksOf(facts, 2), { dealer: "E", vulnerability: "ns" });
  assert.equal(tableOfPair(facts, "EW3", 1), 2);
  assert.equal(tableOfPair(facts, "EW9", 1), 0);
});

test("a table's boards are those up to the present round, the newest first", () => {
  assert.deepEqual(
    cellsOfTable(facts, 3).map(({ board, round, live }) => [board, round, live]),
    [[1, 2, true], [3, 1, true]],
  );
});

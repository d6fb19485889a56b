// The director's room: each cell of the rounds so far with its mark, and all that is awaited, the oldest first.
import assert from "node:assert/strict";
import { test } from "node:test";
import { newForms } from "../forms.js";
import { ask, keyOf } from "../messages.js";
import { publicFacts } from "../public_facts.js";
import { roomOf } from "../room.js";
import { directorNeeds, directorView } from "../views/director.js";
import { roomSection } from "../views/room.js";
import { all, byClass, byId, byTag, pageOf, rowsOf, textOf } from "./elements.js";
import { howell, mitchell, statusOfList, withoutEw3 } from "./movements.js";

// In round 2 table 1 has set 2, table 2 set 3 and table 3 set 1; board 1 is ruled on at table 1.
const live = [[1], [2], []];
const facts = mitchell(3, 3, { round: 2, live, held: [2] });
const traveller = { board: 1, rows: [{ table: 1, ns: "NS1", ew: "EW1", ruling: [60, 40] }] };
const known = new Map([[keyOf(ask.traveller(1)), { value: traveller }]]);
const pageWith = (given, answers = known) =>
  pageOf(given, "d", { forms: newForms(), twoStep: () => null, answer: (query) => answers.get(keyOf(query)) ?? null });

test("each board of a table is awaited, late, has a result or is ruled, and its board may be held", () => {
  const { rounds, tables } = roomOf(facts, (table, board) => table === 1 && board === 1);
  assert.deepEqual(rounds, [2, 1], "the present round first, and no later one");
  const cells = tables.map(({ table, rounds: of }) => [table, ...of.map((each) => each.map(({ board, state, isHeld }) => [board, state, isHeld]))]);
  assert.deepEqual(cells, [
    [1, [[2, "awaited", true]], [[1, "ruled", false]]],
    [2, [[3, "awaited", false]], [[2, "result", true]]],
    [3, [[1, "awaited", false]], [[3, "late", false]]],
  ]);
});

test("a table that plays nothing in a round has no cell there, and pairs that change sides hinder nothing", () => {
  const { tables } = roomOf(withoutEw3({ round: 3 }), () => false);
  assert.deepEqual(tables.map(({ rounds }) => rounds.map((cells) => cells.length)), [[1, 0, 1], [0, 1, 1], [1, 1, 0]]);
  assert.equal(roomOf(howell({ round: 5 }), () => false).rounds.length, 5);
});

test("the first that a director sees is the room, and each cell opens its table and board", () => {
  const view = directorView(pageWith(facts), {});
  assert.equal(textOf(byTag(byClass(view, "panel")[0], "h2")), "The room");
  assert.deepEqual(rowsOf(byClass(view, "room")).map((row) => row.slice(0, 3)), [
    ["1", "2…H", "1%"],
    ["2", "3…", "2✓H"],
    ["3", "1…", "3!"],
  ]);
  const spoken = byTag(byClass(view, "room"), "a").map((cell) => cell.attributes["aria-label"]);
  assert.deepEqual(spoken, [
    "2, awaited, the board is held", "1, ruled", "3, awaited", "2, has a result, the board is held", "1, awaited", "3, late",
  ]);
  assert.equal(byId(view, "room-3-3").attributes.href, "#/director/3/3");
  assert.deepEqual(byTag(byClass(view, "room"), "th").slice(0, 3).map(textOf), ["Table", "Round 2, now", "Round 1"]);
  const states = byTag(byClass(view, "legend"), "li").map((item) => textOf(item).split(" ")[0]);
  assert.deepEqual(states, ["…", "!", "✓", "%", "H"], "each mark is explained");
});

test("as long as no traveller has come, a ruling is a result like another", () => {
  assert.match(textOf(byId(roomSection(pageWith(facts, new Map())), "room-1-1")), /^1✓/u);
  const strange = new Map([[keyOf(ask.traveller(1)), { value: { rows: "?" } }]]);
  assert.match(textOf(byId(roomSection(pageWith(facts, strange)), "room-1-1")), /^1✓/u);
});

test("travellers are asked for of the boards that have a result, and of no other", () => {
  assert.deepEqual(directorNeeds({ facts }, {}), [ask.accounts(), ask.traveller(1), ask.traveller(2)]);
  assert.deepEqual(directorNeeds({ facts }, { table: 1, board: 3 }), [ask.traveller(3), ask.play(1, 3), ask.reason(1, 3), ask.board(3)]);
});

test("all that is awaited is listed, however much it is, the oldest first", () => {
  const many = publicFacts(statusOfList("howell_5", { per_set: 8, round: 3 }));
  const view = roomSection(pageWith(many, new Map()));
  const listed = all(view, (node) => /^awaited-/u.test(node.attributes?.id)).map(textOf);
  assert.equal(listed.length, 5 * 3 * 8);
  const rounds = listed.map((text) => Number(/^Round (\d+)/u.exec(text)[1]));
  assert.deepEqual(rounds, [...rounds].sort((one, other) => one - other));
  assert.match(listed[0], /^Round 1: table 1, board \d+$/u);
  assert.equal(textOf(byId(view, "awaited")), "120 results are awaited of the rounds so far, the oldest first:");
  const one = mitchell(3, 3, { live: [[1], [2], []] });
  assert.equal(textOf(byId(roomSection(pageWith(one, new Map())), "awaited")), "1 result is awaited of the rounds so far:");
  const done = mitchell(3, 3, { live: [[1], [2], [3]] });
  assert.equal(textOf(byId(roomSection(pageWith(done, new Map())), "awaited")), "No result is awaited of the rounds so far.");
});

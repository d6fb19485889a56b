// Score cards and travellers: what a pair made of each board, in percent too, and how it stands after it.
import assert from "node:assert/strict";
import { test } from "node:test";
import { newForms } from "../forms.js";
import { scoreCardOf } from "../score_cards.js";
import { texts } from "../texts.js";
import { papersNeeds, papersView } from "../views/papers.js";
import { scoreCardLines, scoreCardView } from "../views/score_card.js";
import { travellerView } from "../views/traveller.js";
import { byClass, byTag, rowsOf, textOf } from "./elements.js";
import { club, pageAt, travellerOf } from "./club.js";
import { mitchell } from "./movements.js";

const seats = [["n1", "NS1", "N"], ["s1", "NS1", "S"], ["e1", "EW1", "E"], ["w1", "EW1", "W"]];
const facts = mitchell(3, 3, { per_set: 1, round: 3, seats });
const three = (tricks) => ({ by: "S", doubled: 0, level: 3, strain: "N", tricks });

// NS1 meets EW1 on board 1, EW3 on board 2, EW2 on board 3; NS2 meets EW1 on board 3, in round 2.
const first = { board: 1, rows: [
  { table: 1, ns: "NS1", ew: "EW1", result: three(10), score: 430, points: 4 },
  { table: 2, ns: "NS2", ew: "EW3", result: three(9), score: 400, points: 1 },
  { table: 3, ns: "NS3", ew: "EW2", result: three(9), score: 400, points: 1 },
] };
const second = { board: 2, rows: [
  { table: 1, ns: "NS1", ew: "EW3", ruling: [60, 30] },
  { table: 2, ns: "NS2", ew: "EW2", result: three(8), score: -50, points: 0 },
  { table: 3, ns: "NS3", ew: "EW1", result: "pass", score: 0, points: 2 },
] };
const third = { board: 3, rows: [{ table: 1, ns: "NS1", ew: "EW2", result: three(8), score: -50, points: 0 }] };

test("a card has a board's opponents, score and percentage, for either side, and how the pair stands after it", () => {
  const line = ({ board, against, score, points, percent, soFar, total }) => [board, against, score, points, percent, soFar, total.earned, total.tops];
  assert.deepEqual(scoreCardOf(facts, [first, second, third], "NS1").map(line), [
    [1, "EW1", 430, 4, "100.00", "100.00", 400, 400],
    [2, "EW3", null, null, "60", "86.67", 520, 600], // 400 and 120 of 400 and 200 hundredths
    [3, "EW2", -50, null, "", "86.67", 520, 600],
  ]);
  assert.deepEqual(scoreCardOf(facts, [first, second, third], "EW1").map(line), [
    [1, "NS1", -430, 0, "0.00", "0.00", 0, 400],
    [2, "NS3", 0, 0, "0.00", "0.00", 0, 600],
  ]);
  const lines = scoreCardOf(facts, [first, second, third], "NS1");
  assert.deepEqual(rowsOf(scoreCardView(facts, lines, "NS1")).map((row) => row.at(-1)), ["4 of 4", "5.2 of 6", "5.2 of 6"]);
  assert.deepEqual(scoreCardLines(facts, lines, "NS1").map((fields) => fields.slice(-3)), [["100.00", "4", "4"], ["86.67", "5.2", "6"], ["86.67", "5.2", "6"]]);
  assert.equal(scoreCardLines(facts, lines, "NS1")[0].length, texts.scoreCard.csvHeads.length);
});

test("the boards stand in the order in which the pair plays them", () => {
  const all = club(5, 2, 5);
  const travellers = all.boards.map((board) => travellerOf(all, board));
  const boards = scoreCardOf(all, travellers, "NS4").map(({ round, board }) => [round, board]);
  assert.deepEqual(boards, [[1, 7], [1, 8], [2, 9], [2, 10], [3, 1], [3, 2], [4, 3], [4, 4], [5, 5], [5, 6]]);
});

test("the last percentage is that of the ranking: what was earned of what could be", () => {
  const all = club(5, 2, 5);
  const travellers = all.boards.map((board) => travellerOf(all, board));
  const rows = travellers.flatMap(({ rows: each }) => each.filter((row) => row.ew === "EW2"));
  const earned = rows.reduce((sum, { points }) => sum + 8 - points, 0);
  const [last] = scoreCardOf(all, travellers, "EW2").slice(-1);
  assert.equal(rows.length, 10);
  assert.equal(last.soFar, (Math.floor(earned / 80 * 10000 + 0.5) / 100).toFixed(2));
});

test("each row of a traveller has the names of its players, and percentages of both sides", () => {
  const rows = rowsOf(travellerView(facts, first, "NS1"));
  assert.deepEqual(rows.map((row) => [row[1], row[2], ...row.slice(4)]), [
    ["n1 – s1 (NS1)", "e1 – w1 (EW1)", "430", "", "100.00", "0.00", "4", "0"],
    ["NS2", "EW3", "400", "", "25.00", "75.00", "1", "3"],
    ["NS3", "EW2", "400", "", "25.00", "75.00", "1", "3"],
  ]);
  assert.deepEqual(rowsOf(travellerView(facts, second, null))[0].slice(1), ["n1 – s1 (NS1)", "EW3", "ruling", "60", "30", "", ""]);
});

test("a result without another to compare it with isn't told to be a bottom", () => {
  const view = travellerView(facts, third, null);
  assert.deepEqual(rowsOf(view)[0].slice(4), ["", "50", "–", "–", "–", "–"]);
  assert.equal(textOf(byClass(view, "note")), "This result is the first: percentages and matchpoints come with the next one.");
  assert.match(textOf(byClass(travellerView(facts, first, null), "note")), /the top is 4/u);
});

const paperOf = (kind, user) => pageAt(club(3, 1, 3, { seats }), user, papersNeeds, { ...newForms(), papers: { kind } });

test("a player prints the own card, and everybody those of all pairs", async () => {
  const own = papersView(await paperOf("results", "e1"));
  assert.deepEqual(byTag(own, "caption").map(textOf), ["Score card of e1 – w1 (EW1)"]);
  assert.deepEqual(byTag(own, "th").slice(0, 8).map(textOf), ["Board", "Against", "Contract", "Score", "Percent", "So far", "MP", "Total"]);
  assert.deepEqual(rowsOf(own).map(([board, against]) => [board, against]), [["1", "n1 – s1 (NS1)"], ["3", "NS2"], ["2", "NS3"]]);
  const cards = papersView(await paperOf("score_cards", "vera"));
  assert.deepEqual(byTag(cards, "caption").map(textOf), [
    "Score card of n1 – s1 (NS1)", "Score card of NS2", "Score card of NS3", "Score card of e1 – w1 (EW1)", "Score card of EW2", "Score card of EW3",
  ]);
});

// A ranking as one list of all pairs, or as one for each direction.
import assert from "node:assert/strict";
import { test } from "node:test";
import { publicFacts } from "../public_facts.js";
import { byClass, byTag, pageOf, rowsOf, textOf } from "./elements.js";
import { howell, mitchell, statusOfList } from "./movements.js";
import { papersView } from "../views/papers.js";
import { rankingCsv, rankingLists, rankingTables } from "../views/ranking.js";

// A Howell of three tables played to its end, and a Mitchell with equal percentages on both sides.
const one = [["NS2", 1300, 2000], ["EW3", 1300, 2000], ["EW1", 1000, 2000], ["EW2", 900, 2000], ["NS3", 800, 2000], ["NS1", 700, 2000]];
const two = [["EW2", 900, 1000], ["NS3", 700, 1000], ["EW1", 700, 1000], ["EW3", 700, 1000], ["NS1", 200, 1000], ["NS2", 0, 0]];
const lists = (facts, ranking) => rankingLists(facts, ranking).map(({ side, ranking: list }) => [side, list.map(([pair]) => pair)]);

test("where pairs change sides there is one list, as the server gives it", () => {
  assert.deepEqual(lists(howell(), one), [[null, ["NS2", "EW3", "EW1", "EW2", "NS3", "NS1"]]]);
  for (const name of ["howell_5", "mitchell_7_switched"]) assert.equal(rankingLists(publicFacts(statusOfList(name)), one).length, 1, name);
});

test("where no pair changes its side there is a list for each direction, in the order of the server's", () => {
  assert.deepEqual(lists(mitchell(3, 3), two), [["NS", ["NS3", "NS1", "NS2"]], ["EW", ["EW2", "EW1", "EW3"]]]);
  for (const name of ["share_and_relay_8", "web_14_13"]) assert.equal(rankingLists(publicFacts(statusOfList(name)), two).length, 2, name);
  const { movement } = statusOfList("share_and_relay_8");
  const turned = movement.map(([round, table, set, ns, ew]) => [round, table, set, ew, ns]);
  const swapped = publicFacts(statusOfList("share_and_relay_8", { movement: turned }));
  assert.deepEqual(lists(swapped, two)[0], ["NS", ["EW2", "EW1", "EW3"]], "the direction is where a pair sits");
});

test("a pair that sits out the only round stands in the list of its name", () => {
  const facts = mitchell(3, 1, { absent: "EW3" });
  const ranking = ["NS1", "NS2", "NS3", "EW1", "EW2"].map((pair) => [pair, 0, 0]);
  assert.deepEqual(lists(facts, ranking), [["NS", ["NS1", "NS2", "NS3"]], ["EW", ["EW1", "EW2"]]]);
});

test("the page and the papers say above the lists how many winners there are, and places are of a list", () => {
  const single = rankingTables(howell(), one, "NS1");
  assert.match(textOf(byClass(single, "winners")), /^One winner: pairs change sides/u);
  assert.deepEqual(byTag(single, "caption").map(textOf), ["Ranking of the pairs"]);
  assert.deepEqual(rowsOf(single).map(([place, pair]) => `${place} ${/\b(NS|EW)\d/u.exec(pair)[0]}`), ["1= NS2", "1= EW3", "3 EW1", "4 EW2", "5 NS3", "6 NS1"]);
  const both = rankingTables(mitchell(3, 3), two, "NS1");
  assert.match(textOf(byClass(both, "winners")), /^Two winners: no pair changes its side/u);
  assert.deepEqual(byTag(both, "caption").map(textOf), ["Ranking of the North-South pairs", "Ranking of the East-West pairs"]);
  assert.deepEqual(rowsOf(both).map(([place, pair]) => `${place} ${pair}`), ["1 NS3", "2 NS1", "– NS2", "1 EW2", "2= EW1", "2= EW3"]);
});

test("the paper has the same lists as the page", () => {
  const paper = (facts, ranking) => {
    const answered = { answer: () => ({ value: ranking, denied: null, error: null, version: 0 }), forms: { papers: { kind: "ranking" } } };
    return byClass(papersView(pageOf(facts, "n1", answered)), "paper");
  };
  assert.deepEqual(rowsOf(paper(howell(), one)), rowsOf(rankingTables(howell(), one, "NS1")));
  assert.deepEqual(byTag(paper(mitchell(3, 3), two), "caption").map(textOf), ["Ranking of the North-South pairs", "Ranking of the East-West pairs"]);
  assert.match(textOf(byClass(paper(mitchell(3, 3), two), "winners")), /^Two winners/u);
});

test("each pair has the boards that it has played so far beside it, on either side", () => {
  // In round 1 table 1 plays set 1 of two boards and table 2 set 2; in round 2 table 1 plays set 2: NS1 against EW1 and then EW3.
  const live = [[1], [1], [1, 2], [2], [], []];
  const facts = mitchell(3, 3, { round: 2, per_set: 2, live, marks: live.map(() => "N none") });
  const played = (made) => Object.fromEntries(rowsOf(made).map((row) => [row[1], row.at(-1)]));
  assert.deepEqual(played(rankingTables(facts, two, "NS1")), { NS1: "3", NS2: "2", NS3: "0", EW1: "2", EW2: "2", EW3: "1" });
  assert.deepEqual(rankingCsv(facts, two).trimEnd().split("\r\n").slice(1).map((line) => line.split(",")).map((line) => [line[1], line.at(-1)]),
    [["NS3", "0"], ["NS1", "3"], ["NS2", "2"], ["EW2", "2"], ["EW1", "2"], ["EW3", "1"]]);
});

test("a spreadsheet has the lists one after the other, with the direction behind", () => {
  const lines = (facts, ranking) => rankingCsv(facts, ranking).trimEnd().split("\r\n").slice(1);
  assert.deepEqual(lines(mitchell(3, 3, { seats: [["n1", "NS3", "N"]] }), two).slice(0, 4), [
    "1,NS3,n1,70.00,7,10,NS,0", "2,NS1,,20.00,2,10,NS,0", ",NS2,,,0,0,NS,0", "1,EW2,,90.00,9,10,EW,0",
  ]);
  assert.deepEqual(lines(howell(), one).slice(0, 2), ["1,NS2,,65.00,13,20,,0", "1,EW3,,65.00,13,20,,0"]);
});

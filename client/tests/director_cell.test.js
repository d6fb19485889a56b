// The director's desk for a table's result: what a correction begins with, and what a ruling asks before it is given.
import assert from "node:assert/strict";
import { test } from "node:test";
import { Drafts } from "../drafts.js";
import { newForms } from "../forms.js";
import { ask, keyOf } from "../messages.js";
import { byId, happens, nodeOf, pageOf, textOf } from "./elements.js";
import { mitchell } from "./movements.js";
import { cellDeskView } from "../views/director_cell.js";

const result = { by: "W", doubled: 1, level: 3, strain: "N", tricks: 7 };
const cards = ["S7", "SK", "S9", "SA"];
const played = { table: 2, ns: "NS2", ew: "EW2", points: 0, score: 500, result };

/** A director's page for table 2 and board 2, with what the server told of them; what is sent, said and asked is kept. */
function desk({ row = played, play = cards, told = true } = {}) {
  const facts = mitchell(3, 3, { live: [[], row ? [2] : [], []] });
  const answers = new Map(told ? [
    [keyOf(ask.traveller(2)), { value: { board: 2, rows: row ? [row] : [] } }],
    [keyOf(ask.play(2, 2)), { value: { cards: row ? play : null } }],
    [keyOf(ask.traveller(1)), { value: { board: 1, rows: [] } }],
    [keyOf(ask.play(1, 1)), { value: { cards: null } }],
  ] : []);
  const made = { sent: [], said: [], asks: {}, disarmed: 0 };
  const page = pageOf(facts, "dora", {
    drafts: new Drafts(null),
    forms: newForms(),
    answer: (query) => answers.get(keyOf(query)) ?? null,
    draw: () => {},
    disarm: () => { made.disarmed += 1; },
    refuse: (text) => { made.said.push(text); },
    perform: (commands, done, then) => {
      made.sent.push(...commands);
      then();
    },
    twoStep: (id, label, sure, act, drawn, isReady = () => true) => {
      made.asks[id] = { sure, act, isReady };
      return nodeOf("button");
    },
  });
  const view = (table = 2, board = 2) => cellDeskView(page, table, board);
  const press = (id) => byId(view(), id).listeners.click();
  const choose = (id) => happens(view(), id, "change");
  const type = (id, text) => byId(view(), id).listeners.input({ target: { value: text } });
  return { made, view, press, choose, type };
}

const isChosen = (view, id) => "checked" in byId(view, id).attributes;

test("a correction begins with what stands, and what isn't changed in it stays, the play too", () => {
  const { made, view, press, choose } = desk();
  for (const id of ["correct-level-3", "correct-strain-N", "correct-by-W", "correct-doubled-1", "correct-over--2"]) assert.ok(isChosen(view(), id), id);
  assert.equal(byId(view(), "correct-play").value, "S7 SK S9 SA");
  choose("correct-over--1");
  assert.ok(isChosen(view(), "correct-over--1"));
  assert.equal(byId(view(), "correct-lost"), undefined);
  press("correct-button");
  assert.deepEqual(made.sent, [{ cmd: "Correct", table: 2, board: 2, result: { ...result, tricks: 8 }, play: cards }]);
});

test("a play is taken out by hand alone, and the page says that it goes", () => {
  const { made, view, press, type } = desk();
  type("correct-play", " ");
  assert.match(textOf(byId(view(), "correct-lost")), /play of 4 cards goes/u);
  press("correct-button");
  assert.deepEqual(made.sent, [{ cmd: "Correct", table: 2, board: 2, result }]);
  const passed = desk();
  passed.choose("correct-ended-passed");
  assert.match(textOf(byId(passed.view(), "correct-lost")), /play of 4 cards goes/u);
  passed.press("correct-button");
  assert.deepEqual(passed.made.sent, [{ cmd: "Correct", table: 2, board: 2, result: "pass" }]);
});

test("a correction that changes nothing isn't sent, and one that was begun can begin again", () => {
  const { made, view, press, choose } = desk();
  assert.equal(byId(view(), "correct-button").attributes["aria-disabled"], "true");
  assert.equal(byId(view(), "correct-again"), undefined);
  press("correct-button");
  assert.deepEqual([made.sent.length, made.said.length], [0, 1]);
  choose("correct-by-E");
  press("correct-again");
  assert.ok(isChosen(view(), "correct-by-W"));
});

test("a correction of a board that was passed out, or ruled on, begins with that", () => {
  const passed = desk({ row: { ...played, score: 0, result: "pass" }, play: [] });
  assert.ok(isChosen(passed.view(), "correct-ended-passed"));
  const ruled = desk({ row: { table: 2, ns: "NS2", ew: "EW2", ruling: [60, 40] }, play: [] });
  assert.equal(isChosen(ruled.view(), "correct-level-3"), false);
});

test("nothing is corrected, ruled or made void before the server has told what stands", () => {
  const { made, view } = desk({ told: false });
  assert.equal(byId(view(), "correct-button"), undefined);
  assert.deepEqual(made.asks, {});
});

test("a ruling begins empty at each table, and asks with its numbers and what it replaces", () => {
  const { made, view, type } = desk();
  const numbers = () => ["rule-ns", "rule-ew", "rule-reason"].map((id) => byId(view(), id).value);
  assert.deepEqual(numbers(), ["", "", ""]);
  assert.equal(made.asks["rule-button"].isReady(), false);
  assert.match(made.said[0], /0 to 100 percent/u);
  for (const [part, text] of [["ns", "60"], ["ew", "40"], ["reason", "12"]]) type(`rule-${part}`, text);
  assert.equal(made.disarmed, 3, "a number that is typed over isn't what was asked about");
  assert.deepEqual(numbers(), ["60", "40", "12"]);
  assert.equal(made.asks["rule-button"].isReady(), true);
  const { sure, act } = made.asks["rule-button"];
  assert.match(sure, /^Give 60 % to North-South and 40 % to East-West, for reason 12\?/u);
  assert.match(sure, /3 no trump doubled by West, 2 undertricks, 7 tricks, which scores 500 for North-South, and its play of 4 cards/u);
  view(1, 1);
  assert.equal(byId(view(1, 1), "rule-ns").value, "", "another table's form is empty");
  act();
  assert.deepEqual(made.sent, [{ cmd: "Rule", table: 2, board: 2, ns: 60, ew: 40, reason: 12 }]);
  assert.deepEqual(numbers(), ["", "", ""], "and so is this one's after its ruling");
});

test("a ruling's numbers are in bounds before it is asked about", () => {
  for (const [wrong, numbers] of [[true, ["60", "40", "0"]], [true, ["60", "101", "7"]], [true, ["", "40", "7"]], [true, ["6.5", "40", "7"]],
    [true, ["60", "40", "100"]], [false, ["0", "100", "99"]]]) {
    const { made, view, type } = desk();
    ["ns", "ew", "reason"].forEach((part, index) => type(`rule-${part}`, numbers[index]));
    view();
    assert.equal(made.asks["rule-button"].isReady(), !wrong, numbers.join("/"));
  }
});

test("making void says what goes, and a ruling too where there is no result", () => {
  const [withResult, ruled, empty] = [desk(), desk({ row: { table: 2, ns: "NS2", ew: "EW2", ruling: [60, 40] }, play: [] }), desk({ row: null })];
  for (const { view } of [withResult, ruled, empty]) view();
  assert.match(withResult.made.asks.void.sure, /What goes: 3 no trump doubled by West/u);
  assert.match(ruled.made.asks.void.sure, /the ruling of 60 % for North-South and 40 % for East-West/u);
  assert.equal(empty.made.asks.void, undefined);
  assert.match(empty.made.asks["rule-button"].sure, /what is entered and not confirmed goes/u);
});

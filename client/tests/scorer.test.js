// The scorer's desk: the steps of a result, what is shown after them, and the way to the next table.
import assert from "node:assert/strict";
import { test } from "node:test";
import { Drafts } from "../drafts.js";
import { newForms } from "../forms.js";
import { ask, keyOf } from "../messages.js";
import { nextCellElsewhere } from "../public_facts.js";
import { emptyDraft } from "../results.js";
import { resultForm } from "../views/result_form.js";
import { scorerNeeds, scorerView } from "../views/scorer.js";
import { byClass, byId, byTag, pageOf, textOf } from "./elements.js";
import { howell, mitchell } from "./movements.js";

const result = { by: "S", doubled: 0, level: 5, strain: "C", tricks: 11 };

function desk(facts, answer = null) {
  const sent = [];
  const page = pageOf(facts, "sam", {
    drafts: new Drafts(null),
    forms: newForms(),
    answer: (query) => (keyOf(query) === keyOf(ask.traveller(1)) ? answer : null),
    draw: () => {},
    forget: (user, table, board) => page.drafts.setEntered(user, table, board, false),
    showFromTop: () => { sent.push("shown from the top"); },
    perform: (commands, done, then) => {
      sent.push(...commands, done);
      then();
    },
  });
  const typed = (step) => page.drafts.write("sam", step, 1, 1, { ...emptyDraft(), level: 5, strain: "C", by: "S", over: 0 });
  const view = () => scorerView(page, { table: 1, board: 1 });
  const press = (id) => byId(view(), id).listeners.click();
  return { page, sent, typed, view, press };
}

test("who confirms has a form of its own, shown from its top, and the page says why the result is typed twice", () => {
  const { page, sent, typed, view, press } = desk(mitchell(3, 3));
  assert.match(textOf(byId(view(), "step-side")), /North-South enter: NS1$/u);
  typed("enter");
  press("enter-button");
  assert.equal(sent.at(-1), "shown from the top");
  assert.equal(byClass(view(), "step-enter").length, 0);
  assert.equal(byClass(view(), "step-confirm").length, 1);
  assert.match(textOf(byId(view(), "step-side")), /didn't enter, usually East-West: EW1$/u);
  assert.match(textOf(byId(view(), "why-twice")), /Why twice/u);
  assert.deepEqual(byTag(view(), "input").filter(({ attributes }) => "checked" in attributes).map(({ attributes }) => attributes.id),
    ["confirm-ended-played", "confirm-doubled-0"], "nothing of what was entered is shown");
  assert.equal(page.drafts.isEntered("sam", 1, 1), true);
});

test("after a confirmation the scorer sees contract and score, before the server's status tells of it", () => {
  const { page, sent, typed, view, press } = desk(mitchell(3, 3));
  page.drafts.setEntered("sam", 1, 1, true);
  typed("confirm");
  page.state.known = 2;
  press("confirm-button");
  assert.match(sent[1], /Confirmed: table 1 has a result on board 1, 5 clubs by South, just made, 11 tricks/u);
  assert.match(textOf(byId(view(), "cell-outcome")), /5 clubs by South.*scores 400 for North-South/u);
  assert.equal(byId(view(), "enter-button"), undefined);
  page.state.version = 2;
  assert.ok(byId(view(), "enter-button"), "a status of that version that has no result is believed");
  assert.equal(page.forms.confirmed.size, 0, "and what was confirmed is forgotten");
});

const live = mitchell(3, 3, { live: [[1, 2], [], []], round: 2 });
const rows = [{ table: 1, ns: "NS1", ew: "EW1", result, score: 400, points: 2 }, { table: 2, ns: "NS2", ew: "EW3", result: "pass", score: 0, points: 0 }];

test("where the server shows the board, the percentage is there too, by the server's row", () => {
  const { page, view } = desk(live, { value: { board: 1, rows } });
  page.forms.confirmed.set("1/1", "pass");
  assert.match(textOf(byId(view(), "cell-outcome")), /5 clubs by South.*scores 400 for North-South · 100\.00 % for North-South, 0\.00 % for East-West$/u);
  assert.equal(byId(view(), "cell-unseen"), undefined);
  const first = desk(live, { value: { board: 1, rows: [rows[0]] } });
  assert.match(textOf(byId(first.view(), "cell-outcome")), / · the first result on this board$/u);
  const ruled = desk(live, { value: { board: 1, rows: [{ table: 1, ns: "NS1", ew: "EW1", ruling: [60, 40] }] } });
  assert.match(textOf(byId(ruled.view(), "cell-outcome")), /60 % for North-South, 40 % for East-West/u);
});

test("where the server doesn't, what was confirmed here is shown, and that percentages aren't for every eye", () => {
  const denied = { denied: { board: 1, rule: 7, table: 0, why: "neither a contestant nor a spectator" }, version: 0 };
  const { page, view } = desk(live, denied);
  assert.equal(byId(view(), "cell-outcome"), undefined, "another tab's confirmation");
  page.forms.confirmed.set("1/1", result);
  assert.match(textOf(byId(view(), "cell-outcome")), /5 clubs by South.*scores 400 for North-South$/u);
  assert.match(textOf(byId(view(), "cell-unseen")), /to those alone who may see the board/u);
});

test("a traveller is asked for where there is a result alone", () => {
  assert.deepEqual(scorerNeeds({ facts: live }, { table: 1, board: 1 }), [ask.traveller(1)]);
  assert.deepEqual(scorerNeeds({ facts: live }, { table: 1, board: 2 }), []);
  assert.deepEqual(scorerNeeds({ facts: live }, { table: 0, board: 0 }), []);
  assert.deepEqual(scorerNeeds({ facts: live }, { table: 1, board: 9 }), []);
});

test("the next table is the first round the room that owes a result, at the board of the present round", () => {
  const cellOf = (facts, table) => {
    const cell = nextCellElsewhere(facts, table);
    return cell && [cell.table, cell.board];
  };
  const facts = mitchell(3, 3, { live: [[1], [], [3]], round: 2 });
  assert.deepEqual(cellOf(facts, 1), [2, 3], "table 2 owes board 3 of round 2 and board 2 of round 1");
  assert.deepEqual(cellOf(facts, 2), [3, 1]);
  assert.deepEqual(cellOf(facts, 3), [1, 2]);
  assert.deepEqual(cellOf(mitchell(3, 3, { live: [[], [], [3]] }), 2), [1, 1], "table 3 owes nothing");
  assert.equal(cellOf(mitchell(3, 3, { live: [[1], [2], [3]] }), 2), undefined);
  assert.deepEqual(cellOf(howell(), 3), [1, 1]);
  const { view } = desk(mitchell(3, 3, { live: [[1], [], []] }));
  assert.equal(byId(view(), "next-table").attributes.href, "#/scorer/2/2");
  assert.equal(byId(view(), "next-cell"), undefined);
});

test("the play part is closed until it is opened by hand, and says how many cards it has", () => {
  const formOf = (play) => resultForm("enter", { ...emptyDraft(), play }, () => {}, { vulnerability: "none", hasPlay: true });
  assert.equal("open" in byId(formOf("S7 SK"), "enter-play-part").attributes, false);
  assert.match(textOf(byId(formOf("S7 SK"), "enter-play-summary")), /: 2 cards$/u);
  assert.doesNotMatch(textOf(byId(formOf(""), "enter-play-summary")), /\d/u);
});

test("entries that the server lost are marked, in the list and at the board, until they are entered again", () => {
  const { page, view, press, typed } = desk(mitchell(3, 3));
  const listed = () => textOf(byId(scorerView(page, { table: 1, board: 0 }), "cell-1-1"));
  typed("enter");
  press("enter-button");
  assert.match(listed(), /entered, to confirm$/u);
  page.drafts.loseEntries("vera");
  assert.match(listed(), /entered, to confirm$/u, "another user's are lost");
  page.drafts.loseEntries("sam");
  assert.match(listed(), /lost by the server, to enter again$/u);
  assert.match(textOf(byId(view(), "cell-lost")), /lost when the server was started again/u);
  assert.equal(byClass(view(), "preview")[0].attributes["data-score"], "400", "what was typed still stands in the form");
  press("enter-button");
  assert.match(listed(), /entered, to confirm$/u);
  assert.equal(byId(view(), "cell-lost"), undefined);
});

test("what is kept in the tab's storage is lost too", () => {
  const storage = { "tevyhora/sam/entered/1/1": "true", "tevyhora/sam/enter/1/1": "{}", "tevyhora/sam2/entered/1/1": "true" };
  const kept = Object.create({ getItem: (name) => storage[name] ?? null, setItem: (name, value) => { storage[name] = value; }, removeItem: (name) => { delete storage[name]; } });
  Object.assign(kept, storage);
  const drafts = new Drafts(kept);
  drafts.loseEntries("sam");
  assert.deepEqual([drafts.isLost("sam", 1, 1), drafts.isEntered("sam", 1, 1), drafts.isEntered("sam2", 1, 1)], [true, false, true]);
  assert.equal(storage["tevyhora/sam/entered/1/1"], '"lost"');
});

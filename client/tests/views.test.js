// What views say of who plays what, where pairs change sides and where they don't.
import assert from "node:assert/strict";
import { test } from "node:test";
import { emptyDraft } from "../results.js";
import { newForms } from "../forms.js";
import { ask } from "../messages.js";
import { beginningOf, element } from "../dom.js";
import { byClass, byId, byTag, nodeOf, pageOf, textOf } from "./elements.js";
import { howell, mitchell, withoutEw3 } from "./movements.js";
import { boardsView } from "../views/boards.js";
import { answerView } from "../views/denial.js";
import { directorView } from "../views/director.js";
import { scorerView } from "../views/scorer.js";
import { seatsSection } from "../views/director_seats.js";
import { sessionView } from "../views/session.js";

const drafts = { read: emptyDraft, isEntered: () => false, isLost: () => false };
const desk = (facts, table, board = 0) => scorerView(pageOf(facts, "k", { drafts }), { table, board });
const pairsOf = (made) => byClass(byId(made, "cell-pairs"), "pair").map(textOf);

test("a scorer who looks at a later board is shown that round's pairs", () => {
  const facts = mitchell(5, 5);
  assert.deepEqual(pairsOf(desk(facts, 2, 2)), ["NS2", "EW2"], "round 1, the present one");
  assert.deepEqual(pairsOf(desk(facts, 2, 3)), ["NS2", "EW1"], "round 2");
  assert.deepEqual(pairsOf(desk(facts, 2, 1)), ["NS2", "EW3"], "round 5");
  assert.match(textOf(byId(desk(facts, 2, 1), "cell-pairs")), / · round 5$/u);
  assert.deepEqual(pairsOf(desk(howell(), 2, 2)), ["e1 (EW1)", "EW2"], "a Howell's round 4");
  assert.deepEqual(pairsOf(desk(howell({ round: 5 }), 1, 2)), ["EW3", "n1 (NS1)"], "a round that is over");
});

test("a scorer finds the tables that play, and those that owe a result", () => {
  const ids = (facts) => byTag(byClass(desk(facts, 0), "table-grid"), "a").map(({ attributes }) => attributes.id);
  assert.deepEqual(ids(withoutEw3({ round: 2 })), ["table-1", "table-2", "table-3"]);
  assert.deepEqual(ids(withoutEw3({ round: 2, live: [[1], [], [], [], []] })), ["table-2", "table-3"]);
});

test("a player whose pair changes its side is told where it sits now", () => {
  const seat = (facts, user) => textOf(byId(sessionView(pageOf(facts, user)), "own-seat"));
  assert.equal(seat(howell({ round: 2 }), "n1"), "You sit in NS1, and begin as North. In round 2 you sit East at table 1.");
  assert.equal(seat(howell({ round: 4 }), "e1"), "You sit in EW1, and begin as East. In round 4 you sit North at table 2.");
  assert.equal(seat(withoutEw3({ round: 2 }), "n1"), "You sit in NS1, and begin as North. In round 2 your pair sits out.");
  assert.equal(seat(mitchell(3, 3, { round: 2, seats: [["n1", "NS1", "N"]] }), "n1"), "You sit in NS1, North.");
});

test("a player's boards are told with the side where the pair changes it", () => {
  const against = (facts, user) => byTag(byClass(boardsView(pageOf(facts, user)), "panel"), "p").map(textOf);
  assert.deepEqual(against(howell(), "n1").slice(0, 2), ["Table 1, North-South, against e1 (EW1)", "Table 1, East-West, against EW3"]);
  assert.deepEqual(against(mitchell(3, 2, { seats: [["n1", "NS1", "N"]] }), "n1"), ["Table 1, against EW1", "Table 1, against EW3"]);
});

test("a board that nobody plays is said to be unplayed, and not complete", () => {
  const stateOf = (facts, board) => textOf(byClass(byId(sessionView(pageOf(facts, "k")), `grid-board-${board}`), "state"));
  assert.equal(stateOf(mitchell(3, 1, { absent: "EW3" }), 3), "not played");
  assert.equal(stateOf(mitchell(3, 1, { live: [[1], [], []] }), 1), "complete");
  assert.equal(stateOf(howell({ live: [[1], [], [], [], []] }), 1), "1 of 3");
});

const optionsOf = (made, id) => byTag(byId(made, id), "option").map((option) => option.value);
const director = (facts, forms = newForms()) => pageOf(facts, "d", { forms, twoStep: () => null });

test("seats are given in the section's pairs alone, and one of them is chosen", () => {
  const seats = (facts, forms) => seatsSection(director(facts, forms));
  assert.deepEqual(optionsOf(seats(howell()), "seat-pair"), ["NS1", "NS2", "NS3", "EW1", "EW2", "EW3"]);
  assert.deepEqual(optionsOf(seats(withoutEw3()), "seat-pair"), ["NS1", "NS2", "NS3", "EW1", "EW2"]);
  assert.deepEqual(optionsOf(seats(mitchell(3, 3, { absent: "NS1" })), "seat-pair"), ["NS2", "NS3", "EW1", "EW2", "EW3"]);
  const forms = newForms();
  seats(mitchell(3, 3, { absent: "NS1" }), forms);
  assert.equal(forms.seat.pair, "NS2", "not the absent pair, which the form begins with");
  assert.ok(byId(seats(howell()), "seat-note"));
  assert.equal(byId(seats(mitchell(3, 3)), "seat-note"), undefined);
});

test("a director chooses among the tables that play a board", () => {
  const forms = newForms();
  forms.cell = { board: 2, table: 1 };
  const tables = (facts) => optionsOf(directorView(director(facts, forms), {}), "cell-table");
  assert.deepEqual(tables(withoutEw3()), [2, 3]);
  assert.equal(forms.cell.table, 2);
  assert.deepEqual(optionsOf(directorView(director(howell(), forms), {}), "cell-board"), [1, 2, 3, 4, 5]);
  const cell = directorView({ ...director(howell(), forms), drafts }, { table: 2, board: 2 });
  assert.equal(textOf(byTag(cell, "p")[0]), "e1 (EW1) against EW2 · round 4");
});

test("an answer of another shape takes nothing else away, whenever its parts are made", () => {
  const page = pageOf(mitchell(3, 3), "v", { answer: () => ({ value: null, denied: null, error: null }) });
  const view = (show) => [element("h1", {}, "title"), answerView(page, ask.accounts(), show), element("p", {}, "behind")];
  const unreadable = /^title.*read.*behind$/u;
  assert.match(textOf(view(({ users }) => users)), unreadable);
  assert.match(textOf(view((value) => [element("p", {}, "first"), () => value.users])), /^titlefirst.*read.*behind$/u);
  const list = (value) => element("ul", {}, element("li", {}), () => value.users);
  assert.match(textOf(view(list)), unreadable);
  const { begun, putRest } = beginningOf(() => view(list), 2);
  assert.equal(textOf([begun]), "title");
  assert.throws(() => putRest(nodeOf("main")), TypeError, "so that the page draws all of the view at once");
});

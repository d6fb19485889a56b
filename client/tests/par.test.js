// A board's par: shown where it is told, beside the traveller and in the record, and asked for in the second edition alone.
import assert from "node:assert/strict";
import { test } from "node:test";
import { newForms } from "../forms.js";
import { ask, keyOf } from "../messages.js";
import { boardNeeds } from "../views/board.js";
import { papersNeeds, papersView } from "../views/papers.js";
import { parFields, parHeads, parView } from "../views/par.js";
import { byClass, pageOf, textOf } from "./elements.js";
import { club, pageAt } from "./club.js";
import { mitchell } from "./movements.js";

const spades = { by: "S", doubled: 0, level: 7, strain: "S", tricks: 13 };
const second = mitchell(3, 3, { edition: 2 });
const pageWith = (answer, facts = second) =>
  pageOf(facts, "d", { answer: (query) => (keyOf(query) === keyOf(ask.par(1)) ? answer : null) });
const told = (result, score) => ({ value: { board: 1, result, score } });

test("a par is told with its contract, and with what it scores for whom", () => {
  assert.match(textOf(parView(pageWith(told(spades, 1510)), 1)), /^Par: 7♠.* S =.*7 spades by South, just made, 13 tricks, 1510 for North-South$/u);
  assert.match(textOf(parView(pageWith(told({ ...spades, by: "W", doubled: 1, tricks: 9 }, 800)), 1)), /X.* W .4.*, 800 for North-South$/u);
  assert.match(textOf(parView(pageWith(told({ ...spades, by: "W" }, -1510)), 1)), /, 1510 for East-West$/u);
  assert.equal(textOf(parView(pageWith(told("pass", 0)), 1)), "Par: passed out");
});

test("nothing is said of a par that isn't known, is denied, or isn't as the protocol has it", () => {
  const denied = { value: null, denied: { board: 1, rule: 10, table: 2, why: "" } };
  for (const answer of [null, told(null, null), denied, { value: null, error: "UnknownRequest" }, { value: "?" }, told(spades, "7"), told(undefined, 3)]) {
    assert.equal(parView(pageWith(answer), 1), null, JSON.stringify(answer));
    assert.deepEqual(parFields(pageWith(answer), 1), ["", ""]);
  }
});

test("a session of the first edition asks for none", () => {
  const queries = (facts) => boardNeeds({ facts }, { board: 1, table: 0 }).map(keyOf);
  assert.ok(queries(second).includes(keyOf(ask.par(1))));
  assert.ok(!queries(mitchell(3, 3)).includes(keyOf(ask.par(1))));
  assert.deepEqual([parHeads({ edition: 1 }), parFields(pageWith(told(spades, 1510), mitchell(3, 3)), 1)], [[], []]);
});

test("each traveller and each record on paper has its par", async () => {
  for (const kind of ["travellers", "records"]) {
    const forms = { ...newForms(), papers: { kind } };
    const page = await pageAt(club(3, 2, 1, { edition: 2, embargo: false }), "dora", papersNeeds, forms);
    const pars = byClass(papersView(page), "sheet").map((sheet) => textOf(byClass(sheet, "par")[0]));
    assert.equal(pars.length, 6);
    pars.forEach((par, index) => assert.match(par, (index + 1) % 3 === 0 ? /^Par: passed out$/u : /^Par: 5♥.*, 300 for North-South$/u));
    const first = await pageAt(club(3, 2, 1), "dora", papersNeeds, forms);
    assert.deepEqual(byClass(papersView(first), "par"), []);
    assert.ok(!first.asked().some((query) => query.includes('"par"')));
  }
});

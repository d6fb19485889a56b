// The audit's pages, and what its rows say.
import assert from "node:assert/strict";
import { readFileSync } from "node:fs";
import { test } from "node:test";
import { aboutOf, pageOfAudit } from "../audit_rows.js";
import { newForms } from "../forms.js";
import { ask, keyOf } from "../messages.js";
import { texts } from "../texts.js";
import { auditNeeds, auditView } from "../views/audit.js";
import { byId, byTag, pageOf, rowsOf, textOf } from "./elements.js";
import { mitchell } from "./movements.js";

/** A session of so many commands, of which the audit tells each by its number. */
function auditOf(version, rowOf = (number) => [number, "sam", "Enter", "1/1"], permissions = { direct: true }) {
  const forms = newForms();
  const page = pageOf(mitchell(3, 3), "dora", { forms, lookAgain: () => {} });
  Object.assign(page.state, { version, permissions });
  page.answer = (query) => {
    const { from, limit } = query.audit;
    const numbers = Array.from({ length: Math.max(0, Math.min(limit, page.state.version - from + 1)) }, (_, index) => from + index);
    return { value: numbers.map(rowOf), denied: null, error: null, version: page.state.version };
  };
  const view = () => auditView(page);
  const numbers = () => rowsOf(view()).map(([number]) => Number(number));
  return { page, view, numbers, press: (id) => byId(view(), id).listeners.click() };
}

test("the newest command stands first, and each is on one page alone", () => {
  const { page, view, numbers, press } = auditOf(250);
  const seen = [];
  assert.equal(numbers()[0], 250);
  for (;;) {
    assert.deepEqual(numbers(), [...numbers()].sort((one, other) => other - one));
    seen.push(...numbers());
    if (!byId(view(), "audit-older")) break;
    press("audit-older");
  }
  assert.deepEqual(seen, Array.from({ length: 250 }, (_, index) => 250 - index));
  assert.match(textOf(byId(view(), "audit-shown")), /^50 to 1 of 250$/u);
  press("audit-newer");
  assert.equal(numbers()[0], 150);
  press("audit-newer");
  assert.equal(numbers()[0], 250);
  assert.equal(byId(view(), "audit-newer"), undefined);
  press("audit-oldest");
  assert.deepEqual([numbers()[0], numbers().at(-1)], [50, 1]);
  press("audit-newest");
  assert.equal(numbers()[0], 250);
  press("audit-older");
  press("audit-newer");
  page.state.version = 251;
  assert.equal(numbers()[0], 251, "the newest page has what comes");
});

test("the first page goes with the session, and an older one stays where it is", () => {
  const { page, numbers, press } = auditOf(150);
  page.state.version = 151;
  assert.deepEqual(auditNeeds(page.state, {}, page), [ask.audit(52, 100)]);
  press("audit-older");
  page.state.version = 160;
  assert.equal(keyOf(auditNeeds(page.state, {}, page)[0]), keyOf(ask.audit(1, 51)));
  assert.deepEqual(numbers().slice(-1), [1]);
});

test("a session that has accepted nothing has an audit without rows", () => {
  const none = { newer: undefined, older: undefined };
  assert.deepEqual(pageOfAudit(0, null, 100), { first: 1, last: 0, ...none });
  assert.deepEqual(pageOfAudit(50, 150, 100), { first: 1, last: 50, ...none }, "a server that began anew has fewer commands");
  assert.match(textOf(auditOf(0).view()), /Nothing was accepted yet/u);
});

test("each row says what it is about, as docs/PROTOCOL.md has it", () => {
  const rows = [
    ["sam", "Enter", "2/3", "entered a result", "table 2, board 3, NS2 – EW1"],
    ["dora", "Rule", "1/1", "gave a ruling", "table 1, board 1, NS1 – EW1"],
    ["dora", "Hold", "3", "held the board", "board 3"],
    ["dora", "Seat", "n1", "gave a seat to the user", "n1"],
    ["dora", "NextRound", "", "began the next round", ""],
    ["ada", "Assign", "d:Director", "gave the user a role", "d: Director"],
    ["ada", "AddInheritance", "Director>Scorer", "put a role above another", "Director above Scorer"],
    [null, "Solved", "14", "found the double-dummy table", "board 14"],
    [null, "Analysed", "1/14", "found what the cards cost", "table 1, board 14"],
  ];
  const { view } = auditOf(rows.length, (number) => [number, ...rows[number - 1].slice(0, 3)]);
  assert.deepEqual(rowsOf(view()).reverse().map(([, ...cells]) => cells), rows.map(([by, , , what, about]) => [by ?? "the solver", what, about]));
  assert.deepEqual(byTag(view(), "a").map(({ attributes }) => attributes.href).reverse(), ["#/director/2/3", "#/director/1/1"]);
  const ofAdministrator = auditOf(1, (number) => [number, "sam", "Enter", "2/3"], { direct: false });
  assert.equal(byTag(ofAdministrator.view(), "a").length, 0);
});

test("every command of the protocol has words, and what isn't as it says is shown as it is", () => {
  const protocol = readFileSync(new URL("../../docs/PROTOCOL.md", import.meta.url), "utf8");
  const begins = protocol.indexOf("| Command | What it is about |");
  const part = protocol.slice(begins, protocol.indexOf("\n\n", begins)).split("\n").map((line) => line.split("|")[1] ?? "").join(" ");
  const words = [...part.matchAll(/`(\w+)`/gu)].map(([, word]) => word);
  assert.ok(words.length >= 21);
  for (const word of words) assert.ok(Object.hasOwn(texts.audit.word, word), word);
  for (const [word, target] of [["Enter", "<b>"], ["Hold", "x"], ["Assign", "a:b:c"], ["AddInheritance", "a"], ["constructor", "1/2"]]) {
    assert.deepEqual(aboutOf(word, target), { text: "name", values: [target] }, word);
  }
});

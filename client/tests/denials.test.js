// The check of a denial, against the rules as docs/POLICY.md writes them.
import assert from "node:assert/strict";
import { test } from "node:test";
import { checkDenial, denialOf, factOf, possibleRoles } from "../denials.js";
import { ask } from "../messages.js";
import { publicFacts } from "../public_facts.js";

// Four tables, two rounds, a board a set: NS1 plays boards 1 and 2 at table 1; board 1 is played at tables 1 and 4.
const opening = {
  held: [],
  live: [[], [], [], []],
  marks: ["N none", "E ns", "S ew", "W both"],
  per_set: 1,
  phase: "Running",
  round: 1,
  rounds: 2,
  seats: [["n1", "NS1", "N"], ["n3", "NS3", "N"]],
  tables: 4,
};
const facts = (changes) => publicFacts({ ...opening, ...changes });
const denied = (rule, board, table) => ({ rule, board, table, why: "" });
const verdict = (changes, name, query, denial) => checkDenial(facts(changes), name, query, denial).verdict;

test("each rule's denial is found to hold where it does, and the next board's, table's and rule's isn't", () => {
  const played = { live: [[1], [], [], []] };
  const complete = { live: [[1, 4], [], [], []] };
  const rows = [
    [{ held: [1] }, "n1", ask.board(1), denied(4, 1, 0)],
    [{}, "n1", ask.board(1), denied(5, 1, 1)],
    [{}, "n1", ask.analysis(1), denied(5, 1, 1)],
    [{}, "n3", ask.traveller(1), denied(6, 1, 1)],
    [played, "n3", ask.board(1), denied(6, 1, 4)],
    [played, "n1", ask.analysis(1), denied(9, 1, 4)],
    [played, "n1", ask.costs(1, 1), denied(9, 1, 4)],
    [played, "n1", ask.play(4, 1), denied(10, 1, 4)],
    [complete, "n1", ask.play(4, 1), denied(10, 1, 4)],
    [complete, "n1", ask.costs(4, 1), denied(10, 1, 4)],
    [complete, "n1", ask.reason(4, 1), denied(11, 1, 4)],
    [{ ...played, phase: "Closed" }, "n1", ask.play(4, 1), denied(12, 1, 4)],
  ];
  for (const [changes, name, query, denial] of rows) {
    const row = JSON.stringify([changes, query, denial]);
    assert.equal(verdict(changes, name, query, denial), "holds", row);
    for (const part of ["rule", "board", "table"]) {
      const wrong = { ...denial, [part]: denial[part] + 1 };
      if (wrong.rule > 3) assert.equal(verdict(changes, name, query, wrong), "contradicted", `${part} of ${row}`);
    }
  }
});

test("in the second edition rules have other numbers from the fourth on, which is the embargo's", () => {
  const second = { edition: 2, embargo: false };
  const played = { ...second, live: [[1], [], [], []] };
  const rows = [
    [{ ...second, embargo: true }, "n1", ask.board(1), denied(4, 1, 0)],
    [{ ...played, embargo: true, held: [1] }, "n1", ask.play(4, 1), denied(4, 1, 0)],
    [{ ...second, held: [1] }, "n1", ask.board(1), denied(5, 1, 0)],
    [second, "n1", ask.board(1), denied(6, 1, 1)],
    [played, "n3", ask.board(1), denied(7, 1, 4)],
    [played, "n1", ask.analysis(1), denied(10, 1, 4)],
    [played, "n1", ask.play(4, 1), denied(11, 1, 4)],
    [{ ...played, live: [[1, 4], [], [], []] }, "n1", ask.reason(4, 1), denied(12, 1, 4)],
    [{ ...played, phase: "Closed" }, "n1", ask.play(4, 1), denied(13, 1, 4)],
  ];
  for (const [changes, name, query, denial] of rows) {
    const row = JSON.stringify([changes, query, denial]);
    assert.equal(verdict(changes, name, query, denial), "holds", row);
    assert.equal(verdict(changes, name, query, { ...denial, rule: denial.rule === 4 ? 5 : denial.rule - 1 }), "contradicted", row);
  }
  assert.equal(verdict(second, "n1", ask.board(1), denied(4, 1, 0)), "contradicted", "there is no embargo");
  assert.equal(verdict({ embargo: true }, "n1", ask.board(1), denied(4, 1, 0)), "contradicted", "the first edition has none");
  assert.equal(verdict({ ...second, embargo: true }, "s", ask.board(1), denied(4, 1, 0)), "roles", "it may be a director");
  assert.equal(verdict(second, "s", ask.board(1), denied(9, 1, 1)), "roles", "it may be a commentator");
});

test("a denial is contradicted where the public facts forbid nothing", () => {
  const complete = { live: [[1, 4], [], [], []] };
  assert.equal(verdict({ live: [[1], [], [], []] }, "n1", ask.board(1), denied(5, 1, 1)), "contradicted");
  assert.equal(verdict(complete, "n3", ask.board(1), denied(6, 1, 4)), "contradicted");
  assert.equal(verdict(complete, "s", ask.board(1), denied(8, 1, 4)), "contradicted");
  assert.equal(verdict({}, "n1", ask.board(1), denied(4, 1, 0)), "contradicted");
});

test("where a rule rests on roles the page says so", () => {
  const complete = { live: [[1, 4], [], [], []] };
  assert.equal(verdict({ held: [1] }, "s", ask.board(1), denied(4, 1, 0)), "roles");
  assert.equal(verdict({}, "s", ask.board(1), denied(6, 1, 1)), "roles");
  assert.equal(verdict({}, "s", ask.board(1), denied(7, 1, 0)), "roles");
  assert.equal(verdict({}, "s", ask.board(1), denied(8, 1, 1)), "roles");
  assert.equal(verdict(complete, "s", ask.play(4, 1), denied(10, 1, 4)), "roles");
  assert.equal(verdict({}, "n1", ask.board(1), denied(7, 1, 0)), "contradicted", "who has a seat is a contestant");
  assert.equal(verdict({}, "s", ask.accounts(), denied(3, 0, 0)), "unseen");
  assert.equal(verdict({}, "n1", ask.accounts(), denied(3, 0, 0)), "unseen");
  for (const rule of [1, 2]) assert.equal(verdict({}, "s", ask.status(), denied(rule, 0, 0)), "unseen");
});

test("the roles that a member may have are those that are kept apart in neither edition", () => {
  assert.equal(possibleRoles(null).length, 10);
  assert.equal(possibleRoles(null, 2).length, 18);
  assert.ok(possibleRoles(null).every((roles) => !roles.commentator));
  assert.ok(possibleRoles(null, 2).every((roles) => !(roles.contestant && roles.commentator)));
  assert.deepEqual(possibleRoles("NS1"), possibleRoles("NS1", 2));
  assert.ok(possibleRoles("NS1", 2).every((roles) => roles.contestant && !roles.director));
});

/** The rules once more, as the page's reader would write them down: a sentence of POLICY each. */
function ruleByRule(now, pair, roles, { kind, board, table }) {
  const cells = now.rows.filter((row) => row.set === board);
  const isThere = (number) => now.live[board - 1].includes(number);
  const mine = cells.find((row) => pair !== null && [row.ns, row.ew].includes(pair));
  const waiting = cells.map((row) => row.table).filter((number) => !isThere(number)).sort((one, other) => one - other);
  const second = now.edition === 2;
  const named = (number, at) => [second ? number + 1 : number, at];
  if (roles.director) return null;
  if (second && now.embargo) return [4, 0];
  if (now.held.includes(board)) return named(4, 0);
  if (roles.contestant && mine && !isThere(mine.table)) return named(5, mine.table);
  if (roles.contestant && !mine && waiting.length) return named(6, waiting[0]);
  if (!roles.contestant && !roles.spectator) return named(7, 0);
  if (!roles.contestant && !roles.commentator && waiting.length) return named(8, waiting[0]);
  if (["analysis", "costs"].includes(kind) && !roles.commentator && waiting.length) return named(9, waiting[0]);
  const sitsHere = mine !== undefined && mine.table === table;
  if (["play", "costs"].includes(kind) && !sitsHere && now.phase === "Running") return named(10, table);
  if (kind === "reason" && !sitsHere) return named(11, table);
  if (["play", "costs", "reason"].includes(kind) && !isThere(table)) return named(12, table);
  return null;
}

test("the first rule that forbids is named, for all roles, results, phases and facts of a small session", () => {
  const queries = [
    ask.board(1),
    ask.traveller(1),
    ask.analysis(1),
    ...[1, 4].flatMap((table) => [ask.play(table, 1), ask.costs(table, 1), ask.reason(table, 1)]),
  ];
  let count = 0;
  const phases = ["Running", "Closed", "Final"];
  const editions = [{}, { edition: 2, embargo: false }, { edition: 2, embargo: true }];
  const resultsHeldPhases = [[], [1], [4], [1, 4]].flatMap((live) => [[], [1]].flatMap((held) =>
    phases.flatMap((phase) => editions.map((edition) => [live, held, phase, edition]))));
  for (const [live, held, phase, edition] of resultsHeldPhases) {
    const now = facts({ live: [live, [], [], []], held, phase, ...edition });
    const pairs = [null, "NS1", "EW1", "NS4", "EW4", "NS2", "EW3"];
    const viewers = pairs.flatMap((pair) => possibleRoles(pair, now.edition).flatMap((roles) => queries.map((query) => [pair, roles, query])));
    for (const [pair, roles, query] of viewers) {
      const expected = ruleByRule(now, pair, roles, factOf(query));
      const found = denialOf(now, pair, roles, factOf(query));
      assert.deepEqual(
        found && [found.rule, found.table],
        expected,
        JSON.stringify([live, held, phase, edition, pair, roles, query]),
      );
      count += 1;
    }
  }
  assert.ok(count > 15000);
});

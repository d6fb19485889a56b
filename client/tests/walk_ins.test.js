// A player who comes without a card: the name for signing in, the token, the commands, and what is said of them.
import assert from "node:assert/strict";
import { test } from "node:test";
import { newForms } from "../forms.js";
import { digestOf, newToken } from "../tokens.js";
import { canBeShown, signInNameFor, sitsAt } from "../walk_ins.js";
import { walkInSection } from "../views/walk_in.js";
import { byId, pageOf, textOf } from "./elements.js";
import { mitchell } from "./movements.js";

const seats = [["anna", "NS1", "N"], ["ben", "NS1", "S"]];
const users = [["anna", ["Contestant"]], ["ben", ["Contestant"]], ["dora", ["Director", "Administrator"]]];

/** A page at a desk, that notes what is sent and answers as it is told. */
function deskOf(permissions, facts = mitchell(3, 3, { seats, edition: 2 }), answered = (commands) => commands.map(() => "ok")) {
  const page = pageOf(facts, "dora", { forms: newForms(), answer: () => ({ value: { users, inherits: [] }, denied: null, error: null, version: 0 }), draw: () => {}, ownAddress: "https://club.example/" });
  page.state.permissions = { score: false, direct: false, administer: false, ...permissions };
  page.refuse = (text) => { page.refused = text; };
  page.perform = async (commands, done, then, explain) => {
    page.sent = commands;
    const answers = answered(commands);
    if (answers[0] === "ok") then();
    page.said = [done(answers), explain(answers)];
  };
  return page;
}

const secure = globalThis.isSecureContext;
async function add(page, form) {
  globalThis.isSecureContext = true;
  Object.assign(page.forms.walkIn, form);
  const view = walkInSection(page);
  await byId(view, "walk-in").listeners.click();
  globalThis.isSecureContext = secure;
  return page;
}

test("a name for signing in is the first word in ASCII, and no account has it yet", () => {
  const rows = [
    ["Anna Müller", [], "anna"], ["Anna Müller", ["anna"], "anna2"], ["Anna Müller", ["anna", "anna2"], "anna3"], ["Élodie", [], "elodie"],
    ["Jürgen Weiß", [], "jurgen"], ["Weiß", [], "weiss"], ["Bjørn", [], "bjorn"], ["Łukasz", [], "lukasz"], ["Œuvré", [], "oeuvre"], ["Jean-Luc P.", [], "jeanluc"],
    ["דורה", [], "guest"], ["דורה כהן", ["guest"], "guest2"], ["=1+1", [], "11"], ["- Anna", [], "anna"], ["Ｆｕｌｌ", [], "full"], ["x".repeat(40), [], "x".repeat(24)],
    ["x".repeat(40), ["x".repeat(24)], `${"x".repeat(24)}2`], ["  .. Anna", [], "anna"],
  ];
  for (const [shown, taken, name] of rows) {
    assert.equal(signInNameFor(shown, taken), name, shown);
    assert.match(name, /^[a-z0-9]{1,32}$/u);
  }
});

test("a name to show has 1 to 64 bytes, and nothing unseen in it", () => {
  for (const text of ["Anna Müller", "דורה", "x".repeat(64), "ü".repeat(32), "O'Neil, \"Pat\""]) assert.equal(canBeShown(text), true, text);
  for (const text of ["", " Anna", "Anna ", "Anna\u00A0", "\u3000Anna", "An\nna", "An\u0085na", "An\u202Ena", "An\u2066na", "An\u200Ena", "An\u061Cna", "An\u2028na", "x".repeat(65), "ü".repeat(33), "\uD800"]) {
    assert.equal(canBeShown(text), false, JSON.stringify(text));
  }
});

test("a token has 100 random bits, in letters of which none is like another, and is in groups as on a card", () => {
  const letters = new Set(Array.from({ length: 400 }, () => newToken()).join("").replaceAll("-", ""));
  assert.equal(letters.size, 32, "five bits each");
  for (const unlike of ["l", "o", "i", "u"]) assert.ok(!letters.has(unlike), unlike);
  assert.match(newToken(), /^[a-z0-9]{4}(-[a-z0-9]{4}){4}$/u);
  const given = newToken({ crypto: { getRandomValues: (bytes) => bytes.fill(0) } });
  assert.equal(given, "0000-0000-0000-0000-0000");
});

test("a substitute is one batch: account, name to show, role, whose seat is free, and the seat", async () => {
  const page = await add(deskOf({ direct: true, administer: true }), { shown: " Clara Weiß ", pair: "NS1", place: "S" });
  const { token } = page.forms.walkIn.made;
  assert.deepEqual(page.sent, [
    { cmd: "AddUser", name: "clara", digest: await digestOf(token) }, { cmd: "Rename", name: "clara", shown: "Clara Weiß" },
    { cmd: "Assign", name: "clara", role: "Contestant" }, { cmd: "Unseat", name: "ben" }, { cmd: "Seat", name: "clara", pair: "NS1", place: "S" },
  ]);
  assert.match(page.said[0], /Clara Weiß.* is added as clara, and sits in NS1/u);
  assert.ok(!JSON.stringify(page.sent).includes(token), "the server gets the digest alone");
});

test("in the first edition no name to show is sent, a free seat takes nobody's, and without a director's permission there is none", async () => {
  const first = mitchell(3, 3, { seats });
  assert.deepEqual((await add(deskOf({ direct: true, administer: true }, first), { shown: "Clara", pair: "EW2", place: "W" })).sent.map(({ cmd }) => cmd), ["AddUser", "Assign", "Seat"]);
  const alone = await add(deskOf({ administer: true }), { shown: "Clara", pair: "NS1", place: "S" });
  assert.deepEqual(alone.sent.map(({ cmd }) => cmd), ["AddUser", "Rename", "Assign"]);
  assert.equal(byId(walkInSection(alone), "walk-in-pair"), undefined);
  assert.equal(walkInSection(deskOf({ direct: true })), null, "who adds no users has no form");
});

test("the form says whose seat goes, the card has all that it needs, and is put away", async () => {
  globalThis.isSecureContext = true;
  const page = deskOf({ direct: true, administer: true });
  Object.assign(page.forms.walkIn, { pair: "NS1", place: "S" });
  assert.match(textOf(byId(walkInSection(page), "walk-in-leaves")), /^ben sits there now/u);
  page.forms.walkIn.place = "N";
  assert.equal(sitsAt(page.state.facts, "NS1", "N"), "anna");
  await add(page, { shown: "Clara Weiß" });
  globalThis.isSecureContext = true;
  page.state.facts = mitchell(3, 3, { seats: [["clara", "NS1", "N"]], edition: 2 });
  const card = textOf(byId(walkInSection(page), "card-made"));
  for (const text of ["Clara Weiß", "NS1, North", "https://club.example/", "clara", page.forms.walkIn.made.token]) assert.ok(card.includes(text), text);
  byId(walkInSection(page), "forget-card").listeners.click();
  assert.equal(byId(walkInSection(page), "card-made"), undefined);
  assert.ok(!JSON.stringify(page.forms).includes("-"), "no token is left");
  globalThis.isSecureContext = secure;
});

test("what was refused of the batch is said by its step, and the card is shown where there is an account", async () => {
  const both = { direct: true, administer: true };
  const taken = await add(deskOf(both, undefined, () => ["ok", "ok", "ok", "ok", "SeatTaken"]), { shown: "Clara", pair: "NS1", place: "S" });
  assert.match(taken.said[0], /is added as clara, without a seat\.$/u);
  assert.equal(taken.said[1], "The seat: Somebody sits there already.");
  assert.ok(taken.forms.walkIn.made);
  const exists = await add(deskOf(both, undefined, () => ["UserExists", "ok", "AlreadyAssigned", "ok", "AlreadySeated"]), { shown: "Clara", pair: "NS1", place: "S" });
  assert.equal(exists.said[0], "");
  assert.match(exists.said[1], /^The account: There is a user of this name already\. The role: .* The seat: This user sits/u);
  assert.equal(exists.forms.walkIn.made, null);
});

test("a name that can't be shown is refused before anything is sent, and without SHA-256 there is no form", async () => {
  const page = await add(deskOf({ direct: true, administer: true }), { shown: "  " });
  assert.equal(page.sent, undefined);
  assert.match(page.refused, /1 to 64 bytes/u);
  globalThis.isSecureContext = false;
  assert.ok(byId(walkInSection(deskOf({ administer: true })), "walk-in-not-secure"));
  globalThis.isSecureContext = secure;
});

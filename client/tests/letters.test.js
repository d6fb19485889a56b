// Suits as letters, and what the foot of the page says of its age.
import assert from "node:assert/strict";
import { test } from "node:test";
import { keepLetters, readLetters } from "../letters.js";
import { footView } from "../views/frame.js";
import { sessionView } from "../views/session.js";
import { byId, byTag, pageOf, textOf } from "./elements.js";
import { mitchell } from "./movements.js";

test("that suits are letters outlives the page, and nothing else is read from the storage", () => {
  const kept = new Map();
  const storage = { getItem: (name) => kept.get(name) ?? null, setItem: (name, value) => kept.set(name, value) };
  assert.equal(readLetters(storage), false);
  keepLetters(storage, true);
  assert.equal(readLetters(storage), true);
  keepLetters(storage, false);
  assert.equal(readLetters(storage), false);
  assert.equal(kept.size, 1);
});

test("a storage that isn't there, or refuses, leaves symbols", () => {
  const refuse = () => { throw new Error("full"); };
  for (const storage of [null, { getItem: refuse, setItem: refuse }]) {
    keepLetters(storage, true);
    assert.equal(readLetters(storage), false);
  }
});

test("the foot tells when the server was heard last, and the session no number of entries", () => {
  const facts = mitchell(3, 3);
  const foot = (heardAt) => byId(footView({ ...pageOf(facts, "vera"), heardAt }), "as-of");
  assert.equal(textOf(foot(new Date(2026, 10, 27, 20, 5))), "As of 20:05.");
  assert.equal(foot(null), undefined, "nothing was heard yet");
  assert.equal(textOf(byTag(sessionView(pageOf(facts, "vera")), "p")[0]), "Round 1 of 3 · play is going on");
});

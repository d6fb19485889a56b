// Drafts of results, and how they are kept.
import assert from "node:assert/strict";
import { test } from "node:test";
import { Drafts } from "../drafts.js";
import { changed, emptyDraft, missingParts, oversOf, readDraft, resultOf } from "../results.js";
import { texts } from "../texts.js";

const draft = (parts) => ({ ...emptyDraft(), ...parts });

test("a result follows when each part is told", () => {
  assert.deepEqual(missingParts(draft({ level: 3 })), ["strain", "by", "over"]);
  assert.equal(resultOf(draft({ level: 3, strain: "N", by: "W" })), null);
  assert.deepEqual(
    resultOf(draft({ level: 3, strain: "N", by: "W", over: -2, doubled: 1 })),
    { by: "W", doubled: 1, level: 3, strain: "N", tricks: 7 },
  );
  assert.equal(resultOf(draft({ passedOut: true, level: 3 })), "pass");
});

test("tricks are offered from 13 down to none", () => {
  for (let level = 1; level <= 7; level += 1) {
    const { made, set } = oversOf(level);
    const tricks = [...made, ...set].map((over) => level + 6 + over).sort((one, other) => one - other);
    assert.deepEqual(tricks, Array.from({ length: 14 }, (_, count) => count), `level ${level}`);
  }
});

test("tricks that a new level can't have are asked again", () => {
  assert.equal(changed(draft({ level: 1, over: 6 }), "level", 7).over, null);
  assert.equal(changed(draft({ level: 1, over: 0 }), "level", 7).over, 0);
  assert.equal(changed(draft({ level: 7, over: -13 }), "level", 1).over, null);
});

test("what was kept is read part by part, and nothing else is", () => {
  assert.deepEqual(
    readDraft({ level: 9, strain: "X", by: "N", over: 1.5, play: 7, doubled: 2, more: 1 }),
    draft({ by: "N", doubled: 2 }),
  );
  for (const kept of [null, 7, "level", []]) assert.deepEqual(readDraft(kept), emptyDraft());
});

class Memory {
  kept = new Map();
  getItem = (name) => this.kept.get(name) ?? null;
  setItem = (name, value) => this.kept.set(name, value);
  removeItem = (name) => this.kept.delete(name);
}

test("a draft outlives the page, by user, table and board, until it is removed", () => {
  const storage = new Memory();
  const typed = draft({ level: 4, strain: "H" });
  const drafts = new Drafts(storage);
  drafts.write("sam", "enter", 1, 2, typed);
  drafts.setEntered("sam", 1, 2, true);
  const later = new Drafts(storage);
  assert.deepEqual(later.read("sam", "enter", 1, 2), typed);
  assert.ok(later.isEntered("sam", 1, 2));
  for (const other of [["tom", "enter", 1, 2], ["sam", "confirm", 1, 2], ["sam", "enter", 2, 1]]) {
    assert.deepEqual(later.read(...other), emptyDraft());
  }
  later.remove("sam", "enter", 1, 2);
  later.setEntered("sam", 1, 2, false);
  assert.deepEqual(new Drafts(storage).read("sam", "enter", 1, 2), emptyDraft());
  assert.equal(storage.kept.size, 0);
});

test("a storage that refuses, or holds anything else, loses nothing of this page", () => {
  const refuses = () => { throw new Error("full"); };
  const drafts = new Drafts({ getItem: () => "{", setItem: refuses, removeItem: refuses });
  assert.deepEqual(drafts.read("sam", "enter", 1, 1), emptyDraft());
  drafts.write("sam", "enter", 1, 1, draft({ level: 2 }));
  assert.equal(drafts.read("sam", "enter", 1, 1).level, 2);
  assert.deepEqual(new Drafts(null).read("sam", "enter", 1, 1), emptyDraft());
});

test("a result is said in words", () => {
  const rows = [
    [{ level: 4, strain: "S", doubled: 1, by: "N", tricks: 9 }, "4 spades doubled by North, 1 undertrick, 9 tricks"],
    [{ level: 3, strain: "N", doubled: 0, by: "E", tricks: 9 }, "3 no trump by East, just made, 9 tricks"],
    [{ level: 1, strain: "C", doubled: 2, by: "W", tricks: 9 }, "1 clubs redoubled by West, 2 overtricks, 9 tricks"],
    ["pass", "passed out"],
  ];
  for (const [result, words] of rows) assert.equal(texts.resultInWords(result), words);
});

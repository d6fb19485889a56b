// Tables that were scrolled sideways, before and after a view is drawn anew.
import assert from "node:assert/strict";
import { test } from "node:test";
import { keepScrolled } from "../scrolled.js";

const table = (label, scrollLeft) => ({ scrollLeft, getAttribute: () => label });
const viewOf = (tables) => ({ tables, querySelectorAll: (selector) => (selector === ".scrolls" ? view.tables : []) });
let view;

function drawnAnew(before, after) {
  view = viewOf(before);
  const scrollAgain = keepScrolled(view);
  view.tables = after;
  scrollAgain();
  return view.tables.map(({ scrollLeft }) => scrollLeft);
}

test("a table that was scrolled sideways is scrolled as far again", () => {
  const before = [table("Traveller of board 1", 40), table("The play, trick by trick", 7)];
  const after = [table("Traveller of board 1", 0), table("Double dummy", 0), table("The play, trick by trick", 0)];
  assert.deepEqual(drawnAnew(before, after), [40, 0, 7]);
});

test("tables of one name are told apart by their order, and one that is new begins at its left edge", () => {
  const before = [table("Ranking", 5), table("Ranking", 9)];
  assert.deepEqual(drawnAnew(before, [table("Ranking", 0), table("Ranking", 0)]), [5, 9]);
  assert.deepEqual(drawnAnew(before, [table("Traveller of board 2", 0)]), [0]);
});

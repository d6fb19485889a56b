// The form of a result: where its tiles stand, and what they say of vulnerability.
import assert from "node:assert/strict";
import { test } from "node:test";
import { emptyDraft } from "../results.js";
import { resultForm } from "../views/result_form.js";
import { all, byClass, byTag, textOf } from "./elements.js";

const formOf = (draft, vulnerability = "none") =>
  resultForm("enter", { ...emptyDraft(), ...draft }, () => {}, { vulnerability, hasPlay: false });

const legendOf = (fieldset) => textOf(byTag(fieldset, "legend"));
const fieldsetOf = (form, legend) => byTag(form, "fieldset").find((each) => legendOf(each).startsWith(legend));
const rowsOfTiles = (form, legend) => byClass(fieldsetOf(form, legend), "tile-row").map((row) => byClass(row, "tile").map(textOf));

test("at each level what was made begins one row of tiles, and what was set the next", () => {
  for (let level = 1; level <= 7; level += 1) {
    const [made, under, ...more] = rowsOfTiles(formOf({ level }), "Tricks");
    assert.deepEqual([made[0], under[0], more.length], ["=", "−1", 0], `level ${level}`);
    assert.deepEqual([made.length, under.length], [8 - level, level + 6], `level ${level}`);
  }
});

test("who is vulnerable is written on the declarers' tiles, and said", () => {
  assert.deepEqual(rowsOfTiles(formOf({}, "ew"), "Declarer"), [["N", "E vul", "S", "W vul"]]);
  assert.deepEqual(rowsOfTiles(formOf({}, "both"), "Declarer"), [["N vul", "E vul", "S vul", "W vul"]]);
  assert.deepEqual(rowsOfTiles(formOf({}, "none"), "Declarer"), [["N", "E", "S", "W"]]);
  const spoken = all(fieldsetOf(formOf({}, "ns"), "Declarer"), (node) => node.tagName === "INPUT").map((input) => input.attributes["aria-label"]);
  assert.deepEqual(spoken, ["North, vulnerable", "East", "South, vulnerable", "West"]);
});

// Notices: what they say, how long they stay, and where their user is when they are put away.
import assert from "node:assert/strict";
import { readFileSync } from "node:fs";
import { test } from "node:test";
import { byTag, nodeOf, textOf } from "./elements.js";
import { Notices } from "../notices.js";

function noticesOf() {
  const parts = { refusal: nodeOf("div"), done: nodeOf("div"), putAway: nodeOf("div") };
  const [notices, said] = [new Notices(parts), () => [textOf(parts.refusal), textOf(parts.done)]];
  const putAway = () => byTag(parts.putAway, "button")[0];
  return { notices, said, putAway };
}

test("a notice is said until it is put away, and the next one takes its place", () => {
  const { notices, said, putAway } = noticesOf();
  assert.equal(notices.isShown, false);
  assert.equal(putAway(), undefined);
  notices.tell("It differs.", "");
  assert.deepEqual([said(), notices.isShown], [["It differs.", ""], true]);
  notices.tell("", "Entered.");
  assert.deepEqual(said(), ["", "Entered."]);
  notices.tell("The second wasn't done.", "The first was.");
  assert.deepEqual(said(), ["The second wasn't done.", "The first was."]);
  putAway().listeners.click();
  assert.deepEqual([said(), notices.isShown, putAway()], [["", ""], false, undefined]);
});

test("who puts a notice away by its button is at what was pressed before", () => {
  const { notices, putAway } = noticesOf();
  const confirm = Object.assign(nodeOf("button"), { attributes: { id: "confirm-button" } });
  document.getElementById = (id) => (id === "confirm-button" ? confirm : null);
  confirm.focus();
  notices.tell("It differs.", "");
  putAway().focus();
  notices.putAway();
  assert.equal(document.activeElement, confirm);
  const elsewhere = nodeOf("input");
  notices.tell("It differs.", "");
  elsewhere.focus();
  notices.putAway();
  assert.equal(document.activeElement, elsewhere, "who is elsewhere stays there");
  document.getElementById = () => null;
});

test("who listens is told of both, a refusal at once, and they stand after all else", () => {
  const page = readFileSync(new URL("../index.html", import.meta.url), "utf8");
  assert.match(page, /<div id="refusal" role="alert"[^>]*><\/div>\n<div id="done" role="status"/u);
  assert.ok(page.indexOf('id="notices"') > page.indexOf('id="foot"'));
});

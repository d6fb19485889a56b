// What the page says of the errors that concern whoever sent a command.
import assert from "node:assert/strict";
import { test } from "node:test";
import { texts } from "../texts.js";

test("that something wasn't kept is told in sentences, and what to do", () => {
  const [notKept, unsure] = ["NotKept", "Unsure"].map((name) => texts.error(name));
  for (const text of [notKept, unsure]) {
    assert.doesNotMatch(text, /NotKept|Unsure|batch|journal|sync/u);
    assert.match(text, /[Tt]ell whoever runs the server/u);
  }
  assert.match(notKept, /nothing of it was taken.*try again/u);
  assert.match(unsure, /may be there after the server's next start, or not.*before you send it again/u);
});

test("an error without a sentence is told by its name", () => {
  assert.equal(texts.error("SomeNewFault"), "The server answered SomeNewFault.");
});

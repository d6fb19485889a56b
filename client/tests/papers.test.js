// Papers of many boards: none is left out, and nothing is printed before all is there.
import assert from "node:assert/strict";
import { test } from "node:test";
import { newForms } from "../forms.js";
import { findNeeds, findView } from "../views/find.js";
import { papersNeeds, papersView } from "../views/papers.js";
import { all, byClass, byId, byTag, rowsOf, textOf } from "./elements.js";
import { club, pageAt } from "./club.js";

const oneTo = (most) => Array.from({ length: most }, (_, index) => index + 1);

const formsOf = (kind) => ({ ...newForms(), papers: { kind } });
const paperOf = (facts, user, kind, change) => pageAt(facts, user, papersNeeds, formsOf(kind), change);

/** The text of the file that "Download as CSV" hands out, as lines of fields. */
async function savedBy(view) {
  let blob = null;
  const before = [URL.createObjectURL, URL.revokeObjectURL, globalThis.document.body];
  URL.createObjectURL = (given) => {
    blob = given;
    return "blob:";
  };
  URL.revokeObjectURL = () => {};
  globalThis.document.body = { append: (link) => Object.assign(link, { click: () => {}, remove: () => {} }) };
  byId(view, "csv").listeners.click();
  [URL.createObjectURL, URL.revokeObjectURL, globalThis.document.body] = before;
  return (await blob.text()).replace("\uFEFF", "").trimEnd().split("\r\n").map((line) => line.split(","));
}

const captions = (view) => byTag(view, "caption").map(textOf);

test("of 128 boards each has its traveller, on paper and as CSV", async () => {
  const page = await paperOf(club(16, 8, 1), "dora", "travellers");
  const view = papersView(page);
  assert.deepEqual(captions(view), oneTo(128).map((board) => `Traveller of board ${board}`));
  const lines = await savedBy(view);
  assert.deepEqual(lines.slice(1).map(([board]) => Number(board)), oneTo(128));
});

test("of 128 boards each has its record, on paper and as CSV", async () => {
  const page = await paperOf(club(16, 8, 1), "dora", "records");
  const view = papersView(page);
  assert.deepEqual(byClass(view, "sheet").map((sheet) => textOf(byTag(sheet, "h3")[0])), oneTo(128).map((board) => `Board ${board}`));
  const lines = await savedBy(view);
  assert.deepEqual(lines.slice(1).map(([board]) => Number(board)), oneTo(128));
});

test("of 128 boards each is found", async () => {
  const page = await pageAt(club(16, 8, 1), "dora", findNeeds, newForms());
  const view = findView(page);
  assert.equal(textOf(byId(view, "found-count")), "128 boards.");
  const found = all(view, (node) => /^found-\d+$/u.test(node.attributes?.id));
  assert.deepEqual(found.map((link) => Number(link.attributes.id.slice(6))), oneTo(128));
});

test("exactly 64 boards, and 65, are whole too", async () => {
  for (const [tables, perSet] of [[8, 8], [13, 5]]) {
    const page = await paperOf(club(tables, perSet, 1), "dora", "travellers");
    assert.equal(captions(papersView(page)).length, tables * perSet);
  }
});

test("a list that never ends is asked for until it goes no further", async () => {
  const page = await paperOf(club(3, 1, 1), "dora", "travellers", (reply) =>
    (reply.list ? { list: { boards: [1, 2, 3], more: true }, version: 1 } : reply));
  assert.deepEqual(page.asked().filter((key) => key.includes("list")).length, 2);
  assert.equal(byClass(papersView(page), "sheet").length, 6, "what was told is shown");
});

test("a list of another shape takes nothing away, and one that is denied is nothing to save", async () => {
  for (const list of [{ more: true }, { boards: "?", more: true }]) {
    const page = await paperOf(club(3, 1, 1), "dora", "travellers", (reply) => (reply.list ? { list, version: 1 } : reply));
    assert.equal(textOf(byId(papersView(page), "heading")), "Papers");
  }
  const denied = { board: 0, rule: 2, table: 0, why: "not a member" };
  const page = await paperOf(club(3, 1, 1), "dora", "travellers", (reply) => (reply.list ? { denied, version: 1 } : reply));
  const view = papersView({ ...page, state: page.state, opened: new Set() });
  assert.equal(byId(view, "csv"), undefined);
  assert.match(textOf(byClass(view, "denial-sentence")), /^The list: denied/u);
});

test("nothing is printed and nothing saved before all is there", async () => {
  const missing = (reply, message) => (message.ask === "traveller" && message.board === 3 ? { error: "Behind", version: 1 } : reply);
  const page = await paperOf(club(3, 1, 1), "dora", "travellers", missing);
  const view = papersView(page);
  assert.equal(textOf(byId(view, "papers-asking")), "Asking the server: 3 of 4 answers are here.");
  assert.deepEqual([byId(view, "print"), byId(view, "csv")], [undefined, undefined]);
});

test("a record has what each declarer makes, with a number for each head in its CSV", async () => {
  const pending = (reply, message) => (message.ask === "analysis" && message.board === 3 ? { analysis: { board: 3, tricks: null }, version: 1 } : reply);
  const view = papersView(await paperOf(club(3, 1, 1), "dora", "records", pending));
  const makes = byClass(view, "makes").filter((made) => made.tagName === "TABLE");
  assert.deepEqual(rowsOf(makes[1]), [["N", "2", "1", "2", "3", "4"], ["S", "0", "10", "11", "12", "13"], ["E", "9", "5", "6", "7", "8"], ["W", "9", "1", "3", "5", "7"]]);
  assert.equal(makes.length, 2, "board 3 isn't solved");
  const [heads, ...lines] = await savedBy(view);
  assert.deepEqual(heads.slice(4, 10), ["dd_n_nt", "dd_n_s", "dd_n_h", "dd_n_d", "dd_n_c", "dd_s_nt"]);
  assert.deepEqual(lines[1].slice(4), "2,1,2,3,4,0,10,11,12,13,9,5,6,7,8,9,1,3,5,7".split(","));
  assert.deepEqual(lines[2].slice(4), Array(20).fill(""));
  for (const line of lines) assert.equal(line.length, heads.length);
});

// Rules of this client that its own text shows: texts are set as texts, and every text is in the table.
import assert from "node:assert/strict";
import { readFileSync, readdirSync } from "node:fs";
import { test } from "node:test";
import { ruleOf } from "../denials.js";
import { texts } from "../texts.js";

const folder = new URL("../", import.meta.url);
const files = ["", "views/"].flatMap(
  (part) => readdirSync(new URL(part, folder)).filter((name) => name.endsWith(".js")).map((name) => part + name),
);
const textOf = (name) => readFileSync(new URL(name, folder), "utf8");

test("no text becomes markup or code", () => {
  for (const name of files) {
    assert.doesNotMatch(
      textOf(name),
      /innerHTML|outerHTML|insertAdjacentHTML|document\.write|\beval\b|new Function|setHTML|srcdoc/u,
      name,
    );
  }
});

test("nothing is loaded from elsewhere", () => {
  for (const name of [...files, "index.html", "styles/base.css", "styles/views.css", "styles/schemes.css", "styles/print.css"]) {
    assert.doesNotMatch(textOf(name).replaceAll("http://www.w3.org/2000/svg", ""), /https?:\/\/|@import|url\(/u, name);
  }
});

test("the page's policy is the strict one", () => {
  const policy = /Content-Security-Policy" content="([^"]*)"/u.exec(textOf("index.html"))[1];
  for (const rule of ["default-src 'none'", "script-src 'self'", "style-src 'self'", "connect-src 'self'", "base-uri 'none'", "form-action 'none'"]) {
    assert.ok(policy.split("; ").includes(rule), rule);
  }
  assert.doesNotMatch(policy, /unsafe|\*|data:|blob:/u);
});

test("what reads a card's address runs first, and waits for no other module", () => {
  const scripts = [...textOf("index.html").matchAll(/<script[^>]*src="([^"]*)"/gu)].map(([, name]) => name);
  assert.deepEqual(scripts, ["card_address.js", "begin.js"]);
  assert.ok(textOf("index.html").indexOf("card_address.js") < textOf("index.html").indexOf("modulepreload"), "it is asked for first");
  assert.doesNotMatch(textOf("card_address.js"), /\bimport\b(?!\()\s*[{"*]/u);
});

/** The modules that a module needs, itself among them. */
function neededBy(name, found = new Set()) {
  if (found.has(name)) return found;
  found.add(name);
  for (const [, path] of textOf(name).matchAll(/^(?:import|export)\b[^;]*?\bfrom "([^"]+)";/gmu)) {
    neededBy(new URL(path, new URL(name, "page:///")).pathname.slice(1), found);
  }
  return found;
}

/** The modules that the page names by its links of a kind, or by its scripts. */
const namedBy = (kind) => [...textOf("index.html").matchAll(new RegExp(`<(?:script|link)[^>]*${kind}="([^"]*)"`, "gu"))].map(([, name]) => name);

test("what draws the form for signing in is asked for at once, and all the rest as soon as it is drawn", () => {
  const [scripts, first, later] = ['type="module" src', 'rel="modulepreload" href', 'rel="later" href'].map(namedBy);
  const begins = [...neededBy("begin.js"), ...neededBy("card_address.js")];
  assert.deepEqual([...scripts, ...first].sort(), begins.sort());
  assert.deepEqual(later.sort(), [...neededBy("app.js")].filter((name) => !begins.includes(name)).sort());
  assert.deepEqual([...scripts, ...first, ...later].sort(), [...files].sort(), "and no module is there that nobody needs");
});

test("the form for signing in is drawn by few modules", () => {
  const bytes = [...neededBy("begin.js"), ...neededBy("card_address.js"), "index.html"].map((name) => textOf(name).length).reduce((one, other) => one + other);
  assert.ok(bytes < 70_000, `${bytes} bytes`);
});

test("a browser keeps nothing but in the tab's own storage", () => {
  for (const name of files) assert.doesNotMatch(textOf(name), /localStorage|document\.cookie|indexedDB/u, name);
  for (const name of files.filter((each) => each !== "app.js" && each !== "drafts.js")) {
    assert.doesNotMatch(textOf(name), /sessionStorage/u, name);
  }
});

test("every text that a view names is in the table", () => {
  for (const name of files) {
    for (const [path] of textOf(name).matchAll(/\btexts\.(?!js\b)[\w.]+/gu)) {
      let value = texts;
      for (const part of path.split(".").slice(1)) {
        if (typeof value === "function" || Array.isArray(value)) break;
        assert.ok(value !== undefined && part in value, `${name}: ${path}`);
        value = value[part];
      }
    }
  }
});

test("every rule and every edition has a sentence and a condition of its own", () => {
  for (const [edition, count] of [[1, 12], [2, 13]]) {
    const told = Array.from({ length: count }, (_, index) => {
      const denied = { rule: index + 1, board: 7, table: 3, why: "" };
      const name = ruleOf(edition, denied.rule);
      assert.match(texts.denial.condition(name, denied, edition), new RegExp(`^Rule ${denied.rule} forbids [^$]{20}`, "u"));
      return texts.denial.sentence(name, denied, texts.denial.thing.board);
    });
    assert.equal(new Set(told).size, count);
    for (const sentence of told) assert.doesNotMatch(sentence, /denied by rule|undefined/u);
  }
  assert.notEqual(texts.denial.condition("incomplete", { rule: 9 }, 2), texts.denial.condition("incomplete", { rule: 9 }, 1));
});

test("every refusal of docs/PROTOCOL.md has words of its own", () => {
  const protocol = readFileSync(new URL("../../docs/PROTOCOL.md", import.meta.url), "utf8");
  const [begins, ends] = ["| Refusal | When |", "Where several hold, the first of this order"].map((words) => protocol.indexOf(words));
  assert.ok(begins >= 0 && begins < ends);
  const part = protocol.slice(begins, ends);
  const names = [...part.matchAll(/`([A-Z]\w+)(?:\(\w+\))?`/gu)].map(([, name]) => name);
  assert.ok(names.length > 35);
  for (const name of names) assert.doesNotMatch(texts.refusal(name), /The server refused/u, name);
  assert.match(texts.refusal("Spoiled(anna)"), /^anna sits/u);
  assert.match(texts.refusal("constructor"), /The server refused: constructor/u);
  for (const set of ["S1", "S2", "S3", "S4"]) assert.match(texts.refusal(`Separation(${set})`), /Contestant/u);
});

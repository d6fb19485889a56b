// Percentages, places, filters, tables for spreadsheets, pauses, addresses.
import assert from "node:assert/strict";
import { test } from "node:test";
import { csvField, csvText } from "../csv.js";
import { badCondition, filterOf, newCondition } from "../filters.js";
import { pauseOf } from "../pauses.js";
import { percentText, placesOf, topOf, unitsText } from "../percentages.js";
import { isServerPath, routeOf, serverAddress, serverPathOf } from "../routes.js";
import { mitchell } from "./movements.js";
import { canDigest, digestOf, isDigest, newToken } from "../tokens.js";

test("percentages have two digits, a half rounded up", () => {
  const rows = [
    [800, 1200, "66.67"],
    [700, 1200, "58.33"],
    [0, 1200, "0.00"],
    [1200, 1200, "100.00"],
    [1, 800, "0.13"],
    [0, 0, ""],
    [1, 3, "33.33"],
  ];
  for (const [earned, tops, text] of rows) assert.equal(percentText(earned, tops), text, `${earned} of ${tops}`);
});

test("units are told without closing zeros", () => {
  assert.deepEqual([0, 200, 250, 205, 1300].map(unitsText), ["0", "2", "2.5", "2.05", "13"]);
});

test("equal percentages share a place, and pairs without tops have none", () => {
  const ranking = [["NS3", 200, 200], ["EW1", 300, 300], ["NS1", 100, 200], ["NS2", 0, 0]];
  assert.deepEqual(
    placesOf(ranking),
    [
      { place: 1, shared: true },
      { place: 1, shared: true },
      { place: 3, shared: false },
      { place: null, shared: false },
    ],
  );
});

test("a top is two units for each other result that was played", () => {
  assert.equal(topOf([{ result: "pass" }, { ruling: [60, 40] }, { result: "pass" }]), 2);
  assert.equal(topOf([]), 0);
  assert.equal(topOf([{ ruling: [60, 40] }]), 0);
});

test("a filter has the members of the protocol", () => {
  const set = (kind, values, isNot = false) => ({ kind, isNot, values: { ...newCondition(kind).values, ...values } });
  assert.equal(filterOf([], "and"), null);
  assert.deepEqual(
    filterOf([set("vul", { vul: "ns" }), set("made", { made: "false" }, true)], "or"),
    { or: [{ vul: "ns" }, { not: { made: false } }] },
  );
  assert.deepEqual(
    filterOf([set("score", { min: "-50", max: "−20" })], "and"),
    { and: [{ score: { max: -20, min: -50 } }] },
  );
  assert.deepEqual(
    filterOf([set("dd", { by: "E", strain: "N", min: "7", max: "13" })], "and"),
    { and: [{ dd: { by: "E", max: 13, min: 7, strain: "N" } }] },
  );
  assert.deepEqual(filterOf([set("doubled", { doubled: "2" }), set("level", {}), set("dealer", { by: "W" }), set("strain", {})], "and"),
    { and: [{ doubled: 2 }, { level: { max: 7, min: 1 } }, { dealer: "W" }, { strain: "S" }] });
});

test("bounds that aren't whole numbers of their range aren't sent", () => {
  const level = (min) => [{ kind: "level", isNot: false, values: { min, max: "7" } }];
  assert.equal(badCondition(level("3")), -1);
  for (const min of ["", "0", "8", "1.5", "1e0", "x"]) assert.equal(badCondition(level(min)), 0, min);
});

test("a spreadsheet reads a text as a text", () => {
  assert.deepEqual(
    ["a,b", 'say "x"', "=1+1", "@x", "-50", -50, null].map(csvField),
    ['"a,b"', '"say ""x"""', "'=1+1", "'@x", "'-50", "-50", ""],
  );
  assert.equal(csvText([["a", 1], ["b\nc", 2]]), 'a,1\r\n"b\nc",2\r\n');
});

test("pauses grow while the server can't be reached, and are long while nobody looks", () => {
  assert.equal(pauseOf(0, false, 0.5), 8_000);
  assert.equal(pauseOf(0, true, 0.5), 60_000);
  assert.deepEqual(
    [1, 2, 3, 4, 7, 100].map((failures) => pauseOf(failures, false, 0.5)),
    [1_500, 1_500, 1_500, 1_500, 1_500, 5_000],
  );
  assert.deepEqual([1, 2, 3, 4, 7, 100].map((failures) => pauseOf(failures, true, 0.5)), [1_000, 2_000, 4_000, 8_000, 60_000, 60_000]);
  for (const failures of [0, 1, 30]) assert.ok(pauseOf(failures, false, 1, true) < 2_000, "within two seconds, whatever chance says");
  assert.equal(pauseOf(0, true, 0.5, true), 60_000, "a desk that nobody looks at");
  assert.deepEqual([0, 1].map((chance) => pauseOf(0, false, chance)), [6_400, 9_600]);
});

test("an address names a view, and anything else the session", () => {
  assert.deepEqual(routeOf("#/scorer/3/7"), { view: "scorer", table: 3, board: 7 });
  assert.deepEqual(routeOf("#/board/7"), { view: "board", table: 0, board: 7 });
  for (const hash of ["", "#", "#/nothing", "#/constructor", "#/__proto__", "#/ranking/1"]) {
    assert.equal(routeOf(hash).view, "session", hash);
  }
  assert.equal(routeOf("#/board/<b>").board, 0);
});

test("no link leads the token to another host", () => {
  const location = { protocol: "https:", host: "bridge.example.org" };
  assert.equal(serverAddress(location, "/session"), "wss://bridge.example.org/session");
  assert.equal(
    serverAddress({ protocol: "http:", host: "127.0.0.1:8000" }, "/b/session"),
    "ws://127.0.0.1:8000/b/session",
  );
  assert.equal(serverPathOf("?server=/b/session"), "/b/session");
  for (const path of ["//evil.example", "https://evil.example", "wss://evil.example/session", "/a//b", "\\\\evil", "/a?b", "/a#b", "", "@evil.example", "/ a"]) {
    assert.equal(isServerPath(path), false, path);
    assert.equal(serverPathOf(`?server=${encodeURIComponent(path)}`), "/session", path);
  }
});

test("a token is random, and its digest is the SHA-256 of its bytes", async () => {
  // The digest of "abc" stands in the standard's own examples (FIPS 180-2).
  assert.equal(await digestOf("abc", globalThis), "ba7816bf8f01cfea414140de5dae2223b00361a396177a9cb410ff61f20015ad");
  const tokens = new Set(Array.from({ length: 50 }, () => newToken()));
  assert.equal(tokens.size, 50);
  for (const token of tokens) assert.match(token, /^[a-z0-9-]{24}$/u);
  assert.ok(isDigest("a".repeat(64)) && !isDigest("a".repeat(63)) && !isDigest("A".repeat(64)));
  assert.equal(canDigest({ isSecureContext: false, crypto: { subtle: {} } }), false);
  assert.equal(canDigest({ isSecureContext: true, crypto: {} }), false);
});

test("a traveller's lines have a field for each head", async () => {
  const { travellerLines } = await import("../views/traveller.js");
  const { texts } = await import("../texts.js");
  const played = { by: "S", doubled: 1, level: 4, strain: "H", tricks: 9 };
  const lines = travellerLines(mitchell(3, 3, { seats: [["n1", "NS1", "N"], ["s1", "NS1", "S"]], names: [["s1", "Bo, Jr."]] }), {
    board: 2,
    rows: [
      { table: 1, ns: "NS1", ew: "EW3", points: 0, score: -200, result: played },
      { table: 2, ns: "NS2", ew: "EW2", points: 2, score: 0, result: "pass" },
      { table: 3, ns: "NS3", ew: "EW1", ruling: [60, 40] },
    ],
  });
  for (const line of lines) assert.equal(line.length, texts.papers.travellerHeads.length);
  assert.deepEqual(lines[0], [2, 1, "NS1", "EW3", "4HX S", 4, "H", "X", "S", -200, 0, 2, "", "", "n1 – Bo, Jr.", ""]);
  assert.deepEqual(lines[1].slice(4, 12), ["passed out", "", "", "", "", 0, 2, 0]);
  assert.deepEqual(lines[2].slice(-4), [60, 40, "", ""]);
});

// Scores by Law 77, worked by hand from the law's table.
import assert from "node:assert/strict";
import { test } from "node:test";
import { overText, scoreOf, scoreOfSide, tricksText } from "../scoring.js";

const result = (level, strain, doubled, tricks, by = "N") => ({ level, strain, doubled, tricks, by });

test("contracts that are made and set score by Law 77", () => {
  const rows = [
    // contract, vulnerability, score for North-South
    [result(4, "S", 0, 10), "none", 420], // 120 + 300
    [result(4, "S", 0, 11), "none", 450],
    [result(1, "N", 1, 7), "both", 180], // 80 + 50 + 50
    [result(7, "N", 2, 13), "ns", 2980], // 880 + 500 + 1500 + 100
    [result(3, "N", 0, 9), "ns", 600], // 100 + 500
    [result(2, "D", 0, 10), "both", 130], // 40 + 50 + 2 * 20
    [result(2, "H", 2, 10), "both", 1640], // 240 + 500 + 100 + 2 * 400
    [result(1, "C", 2, 7), "none", 230], // 80 + 50 + 100
    [result(6, "D", 0, 12), "none", 920], // 120 + 300 + 500
    [result(3, "N", 1, 5), "none", -800], // 100 + 200 + 200 + 300
    [result(3, "N", 1, 5), "ns", -1100], // 200 + 3 * 300
    [result(7, "N", 2, 0), "both", -7600], // 2 * (200 + 12 * 300)
    [result(4, "H", 0, 8), "ew", -100],
    [result(4, "S", 0, 10, "E"), "ew", -620],
    [result(4, "S", 0, 9, "W"), "ew", 100],
    ["pass", "both", 0],
  ];
  for (const [played, vulnerability, score] of rows) {
    assert.equal(scoreOf(played, vulnerability), score, JSON.stringify([played, vulnerability]));
  }
});

test("tricks are told above and below the contract", () => {
  assert.deepEqual([0, 2, -3].map(overText), ["=", "+2", "−3"]);
  assert.equal(tricksText(result(4, "S", 0, 9)), "−1");
  assert.equal(tricksText("pass"), "");
});

test("a score stands in the column of the side that earned it", () => {
  assert.deepEqual([scoreOfSide(420, "NS"), scoreOfSide(420, "EW")], ["420", ""]);
  assert.deepEqual([scoreOfSide(-50, "NS"), scoreOfSide(-50, "EW")], ["", "50"]);
  assert.deepEqual([scoreOfSide(0, "NS"), scoreOfSide(0, "EW")], ["0", ""]);
});

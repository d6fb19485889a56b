// Hands and plays.
import assert from "node:assert/strict";
import { test } from "node:test";
import { handsOf, pointsOf, readPlay, tricksOf } from "../cards.js";

const deal = "N:Q3.A5.J974.J8542 K9754.KT94.Q63.7 82.QJ6.AK8.AKT96 AJT6.8732.T52.Q3";

test("a deal's hands are read from the place that it names", () => {
  const hands = handsOf(deal);
  assert.deepEqual(hands.N, { S: "Q3", H: "A5", D: "J974", C: "J8542" });
  assert.deepEqual(hands.W, { S: "AJT6", H: "8732", D: "T52", C: "Q3" });
  assert.deepEqual(["N", "E", "S", "W"].map((place) => pointsOf(hands[place])), [8, 8, 17, 7]); // 40 together
  assert.equal(handsOf("S:A... .A.. ..A. ...A").S.S, "A");
  for (const text of ["", "N:", "X:A... .A.. ..A. ...A", "N:A... .A.. ..A.", "N:A.. .A.. ..A. ...A", "NA... .A.. ..A. ...A"]) {
    assert.equal(handsOf(text), null, text);
  }
});

test("cards are read as scorers write them", () => {
  assert.deepEqual(readPlay("S2 d2,c2; SA\n♥10 ♠T"), { cards: ["S2", "D2", "C2", "SA", "HT", "ST"], fault: null });
  assert.deepEqual(readPlay("  "), { cards: [], fault: null });
  assert.deepEqual(readPlay("S2 XX").fault, { word: "XX", why: "unknown" });
  assert.deepEqual(readPlay("S2 s2").fault, { word: "s2", why: "twice" });
  for (const word of ["S", "S1", "S11", "N2", "2S", "<b>"]) assert.equal(readPlay(word).fault?.why, "unknown", word);
});

test("a trick goes to the highest card of its suit, or to the highest trump (Law 44), and its winner leads next", () => {
  const spades = { level: 4, strain: "S", by: "N", doubled: 0, tricks: 10 };
  const won = (cards, result) => tricksOf(cards, result).map(({ leader, winner }) => [leader, winner]);
  // East leads, left of the declarer: East, South, West, North.
  assert.deepEqual(won(["H2", "HK", "H3", "HA"], spades), [["E", "N"]]);
  assert.deepEqual(won(["H2", "HK", "S3", "HA"], spades), [["E", "W"]]);
  assert.deepEqual(won(["H2", "S9", "S3", "HA"], spades), [["E", "S"]]);
  assert.deepEqual(won(["H2", "D9", "DA", "H3"], { ...spades, strain: "N" }), [["E", "N"]]);
  assert.deepEqual(won(["H2", "HK", "H3", "HA", "S2", "S3"], spades), [["E", "N"], ["N", null]]);
  assert.deepEqual(tricksOf(["H2", "HK"], { ...spades, by: "W" })[0].played.map(({ place }) => place), ["N", "E"]);
});

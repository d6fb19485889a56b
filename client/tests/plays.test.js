// Plays: whose turn it is, what can be played, pasted texts, and claims. The play is of a deal that was made for it.
import assert from "node:assert/strict";
import { test } from "node:test";
import { handsOf } from "../cards.js";
import { expectedCards, overOf, playOf, revokeOf, tricksSoFar, turnOf } from "../plays.js";
import { emptyDraft } from "../results.js";
import { resultForm } from "../views/result_form.js";
import { all, byClass, byId, byTag, happens, textOf } from "./elements.js";

const hearts = { by: "S", strain: "H", level: 4 };
// West leads: SK wins; then West leads on, North is void in spades and trumps; then North leads.
const cards = ["SK", "S2", "S3", "S4", "SQ", "H2", "S5", "S6", "D2", "DK", "D3", "D4"];
const deal = "N:2.A2.A5432.A5432 A53.K3.KQ76.KQ76 64.QJT98765.J8.J KQJT987.4.T9.T98";

test("who follows is on the left, and who has won a trick leads to the next", () => {
  const turns = cards.map((_, count) => turnOf(cards.slice(0, count), hearts)).map(({ place, trick, led }) => `${trick} ${place} ${led ?? "-"}`);
  assert.deepEqual(turns, ["1 W -", "1 N SK", "1 E SK", "1 S SK", "2 W -", "2 N SQ", "2 E SQ", "2 S SQ", "3 N -", "3 E D2", "3 S D2", "3 W D2"]);
  assert.equal(turnOf(cards, hearts).place, "E");
  assert.equal(turnOf(Array.from({ length: 52 }, () => "S2"), hearts), null);
});

test("who didn't follow suit is expected to have none of it, and no card is expected twice", () => {
  const after = expectedCards(cards.slice(0, 9), hearts, null);
  assert.ok(after.has("DK") && after.has("HA") && after.has("SA"), "East has shown nothing");
  assert.ok(!after.has("SK"), "it was played");
  const again = expectedCards([...cards.slice(0, 8), "D2", "DK", "D3", "D4", "C2", "C3", "C4"], hearts, null);
  assert.deepEqual([again.has("S7"), again.has("C5"), again.has("D5")], [false, true, true], "North has no spade");
});

test("where the hands are known, those cards are expected that follow suit, and all of the hand where none does", () => {
  const hands = handsOf(deal);
  assert.deepEqual([...expectedCards(["SK"], hearts, hands)], ["S2"]);
  assert.deepEqual([...expectedCards(["SK", "S2", "S3", "S4", "SQ"], hearts, hands)].join(" "), "HA H2 DA D5 D4 D3 D2 CA C5 C4 C3 C2");
  assert.equal(expectedCards([], hearts, hands).size, 13);
});

test("a suit that wasn't followed and is played later is told, with both tricks", () => {
  assert.equal(revokeOf(cards, hearts), null);
  assert.deepEqual(revokeOf([...cards.slice(0, 8), "S7"], hearts), { card: "S7", place: "N", trick: 3, earlier: 2 });
});

test("tricks are counted for the declarer's side, and a claim is of those that are left", () => {
  assert.deepEqual(tricksSoFar(cards, hearts), { won: 1, left: 10 });
  assert.deepEqual(tricksSoFar(cards, { ...hearts, by: "E", strain: "H" }).left, 10);
  assert.equal(overOf(1 + 9, hearts), 0);
  assert.equal(overOf(1, hearts), -9);
});

const pbn = `[Declarer "S"]\n[Contract "4H"]\n[Result "9"]\n[Play "W"]\nSK S2 S3 S4\nSQ H2 S5 S6 {ruffs}\nD4 D2! DK D3 ; low\n- - - -\n*\n[Note "1:x"]\n`;

test("a play from PBN is read by its columns, whoever led to the trick, and ends where it ends", () => {
  assert.deepEqual(playOf(pbn, hearts), { cards: [...cards.slice(0, 8), "D2", "DK", "D3", "D4"], fault: null, tricks: 9 });
  const won = pbn.replace("D4 D2! DK D3 ; low\n- - - -", "- D2 - -");
  assert.deepEqual(playOf(won, hearts).cards.slice(8), ["D2"]);
  assert.deepEqual(playOf('[Play "W"]\n=1= SK $1 S2 S3?? S4\n+', hearts).cards, cards.slice(0, 4));
  assert.equal(playOf('[Play "W"]\nSK S2\n*', hearts).tricks, null, "no result is told");
});

test("what is pasted and can't be read is told by why", () => {
  const why = (text, contract = hearts) => [playOf(text, contract).fault?.why, playOf(text, contract).fault?.word];
  assert.deepEqual(why(pbn, { by: null, strain: "H", level: 4 }), ["contract", "Play"]);
  assert.deepEqual(why(pbn, { ...hearts, by: "N" }), ["leader", "W"]);
  assert.deepEqual(why(pbn + pbn), ["several", "Play"]);
  assert.deepEqual(why('[Play "X"]\nSK'), ["unknown", 'Play "X"']);
  assert.deepEqual(why('[Play "W"]\nSK - S3 -\n'), ["order", "S3"]);
  assert.deepEqual(why('[Play "W"]\nSK S2 S2 S4\n'), ["twice", "S2"]);
  assert.deepEqual(why('[Play "W"]\nSK SX S2 S4\n'), ["unknown", "SX"]);
  assert.deepEqual(why("qx|o1|pc|SK|qx|o2|pc|S2|"), ["several", "qx"]);
  assert.deepEqual(why("pc|SK|pc|sk|"), ["twice", "sk"]);
});

test("a play from LIN is read in its order, with what was claimed", () => {
  const lin = "st||md|1,,|pn|a,b|mb|1H|pg||pc|SK|pc|s2|pc|S3|pc|S4|pg||\npc|SQ|pc|h2|pc|S5|pc|S6|pg||mc|9|";
  assert.deepEqual(playOf(lin, emptyDraft()), { cards: cards.slice(0, 8), fault: null, tricks: 9 });
  assert.deepEqual(playOf("pc|H10|", emptyDraft()), { cards: ["HT"], fault: null, tricks: null });
  assert.deepEqual(playOf("SK S2", emptyDraft()), { cards: ["SK", "S2"], fault: null, tricks: null });
});

/** The play's part of a scorer's form, and what it makes of the draft. */
function formOf(more, options = {}) {
  let draft = { ...emptyDraft(), level: 4, strain: "H", by: "S", ...more };
  const view = () => resultForm("enter", draft, (next) => { draft = next; }, { vulnerability: "none", hasPlay: true, isPlayOpen: true, ...options });
  return { view, draft: () => draft, tap: (id) => happens(view(), id, "click"), change: (id, value) => byId(view(), id).listeners.change({ target: { value } }), paste: (value) => byId(view(), "enter-play").listeners.input({ target: { value } }) };
}

test("cards are tapped one after another and taken back, and the form says whose turn it is", () => {
  const form = formOf({});
  assert.equal(byClass(form.view(), "card-tap").length, 52);
  assert.match(textOf(byId(form.view(), "enter-turn")), /^Trick 1: West leads\./u);
  for (const card of cards.slice(0, 5)) form.tap(`enter-card-${card}`);
  assert.equal(form.draft().play, "SK S2 S3 S4 SQ");
  form.tap("enter-card-SK");
  assert.equal(form.draft().play, "SK S2 S3 S4 SQ", "a card is played once");
  assert.match(textOf(byId(form.view(), "enter-turn")), /^Trick 2: North plays\. On the table: W .*Q The declarer has 0 tricks; 12 are left\.$/u);
  form.tap("enter-take-back");
  assert.equal(form.draft().play, "SK S2 S3 S4");
  const led = byClass(formOf({ play: "SK" }).view(), "led");
  assert.deepEqual(led.map(({ attributes }) => attributes["aria-label"]), ["Cards: spades"]);
});

test("what can't be played by the rules is drawn faintly, and what contradicts them is told", () => {
  const faint = (form) => byClass(form.view(), "unexpected").map(({ attributes }) => attributes.id);
  assert.equal(faint(formOf({ play: "SK" })).length, 0, "nobody knows North's hand");
  const known = formOf({ play: "SK" }, { hands: handsOf(deal) });
  assert.equal(faint(known).length, 50, "but for SK, which was played, and S2");
  const revoked = formOf({ play: [...cards.slice(0, 8), "S7"].join(" ") });
  assert.match(textOf(byId(revoked.view(), "enter-revoke")), /North follows in trick 3 what was not followed in trick 2/u);
  assert.equal(byId(formOf({ play: cards.join(" ") }).view(), "enter-revoke"), undefined);
});

test("a claim tells the result, and the cards so far stay", () => {
  const form = formOf({ play: cards.join(" ") });
  const options = all(byId(form.view(), "enter-claim"), (node) => node.tagName === "OPTION").map(textOf);
  assert.deepEqual([options[0], options[1], options.at(-1), options.length], ["no claim", "0 of 10", "10 of 10", 12]);
  form.change("enter-claim", "3");
  assert.deepEqual([form.draft().over, form.draft().play], [1 + 3 - 10, cards.join(" ")]);
  form.change("enter-claim", "10");
  assert.equal(form.draft().over, 1);
  assert.equal(byId(formOf({ level: null, play: "SK" }).view(), "enter-claim"), undefined, "without a level nothing is over or under");
});

test("a pasted play tells the result where it has one, and whoever leads must be known before", () => {
  const form = formOf({});
  form.paste(pbn);
  assert.equal(form.draft().over, -1, "nine tricks in four hearts");
  assert.equal(textOf(byTag(byId(form.view(), "enter-play-summary"), "summary")), "The play, card by card (may be left out): 12 cards");
  form.tap("enter-card-C2");
  assert.equal(form.draft().play, [...cards, "C2"].join(" "), "and is gone on with by taps");
  assert.ok(byId(formOf({ strain: null }).view(), "enter-play-first"));
  assert.equal(byClass(formOf({}, { isPlayOpen: false }).view(), "card-tap").length, 0, "what is closed isn't made");
});

test("a whole play of another number of tricks than the result is told", () => {
  const whole = Array.from({ length: 13 }, (_, trick) => "SHDC".split("").map((suit) => suit + "AKQJT98765432"[trick])).flat();
  const draft = { by: "S", strain: "N", level: 1, play: whole.join(" ") };
  assert.equal(textOf(byId(formOf({ ...draft, over: 0 }).view(), "enter-contradicts")), "By these cards the declarer has 0 tricks, and the result says another number.");
  assert.equal(byId(formOf({ ...draft, over: -7 }).view(), "enter-contradicts"), undefined);
  assert.match(textOf(byId(formOf({ ...draft, over: 0 }).view(), "enter-turn")), /^All 52 cards are there/u);
});

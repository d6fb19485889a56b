// Names and tokens as they are typed and pasted.
import assert from "node:assert/strict";
import { test } from "node:test";
import { texts } from "../texts.js";
import { cardOf, takeCard } from "../card_address.js";
import { forgetAccount, keepAccount, readAccount } from "../kept_account.js";
import { namesToTry, signInAs, tokensToTry } from "../signing_in.js";

/** A store that knows one user, and notes what is tried. */
function knowing(known, knownToken) {
  const tried = [];
  const signIn = async (name, token) => {
    tried.push([name, token]);
    return name === known && token === knownToken;
  };
  return { store: { signIn }, tried };
}

test("blanks around a name and a token are cut, and nothing within them", async () => {
  const { store, tried } = knowing("anna", "a token");
  assert.deepEqual(await signInAs(store, " anna\t", "\u00A0a token\n"), { name: "anna", token: "a token" });
  assert.deepEqual(tried, [["anna", "a token"]]);
});

test("a name with capitals that isn't known is tried without them, and the page tells the name", async () => {
  const { store, tried } = knowing("anna", "secret");
  assert.deepEqual(await signInAs(store, "Anna", "secret"), { name: "anna", token: "secret" });
  assert.deepEqual(tried, [["Anna", "secret"], ["anna", "secret"]]);
  assert.match(texts.signIn.nameIs("anna"), /the name is anna/u);
});

test("a name that has capitals keeps them", async () => {
  const { store, tried } = knowing("AnnaB", "secret");
  assert.deepEqual(await signInAs(store, "AnnaB", "secret"), { name: "AnnaB", token: "secret" });
  assert.equal(tried.length, 1);
  assert.deepEqual(namesToTry("anna"), ["anna"]);
});

test("a token's capitals are left as they are, and who isn't known is told that capitals count", async () => {
  const { store, tried } = knowing("anna", "secret");
  assert.equal(await signInAs(store, "Anna", "Secret"), null);
  assert.deepEqual(tried.map(([, token]) => token), ["Secret", "Secret"]);
  assert.match(texts.signIn.notKnown, /Capitals count/u);
});

test("a card's token may be typed without dashes, with blanks, and in capitals", async () => {
  const printed = "abcd-efgh-jkmn-pqrs-2345";
  const typings = [printed, "abcdefghjkmnpqrs2345", " abcd efgh jkmn pqrs 2345\n", "ABCD-EFGH-JKMN-PQRS-2345", "abcd–efgh–jkmn–pqrs–2345", "ABCDEFGH JKMNPQRS-2345"];
  for (const typed of typings) {
    const { store, tried } = knowing("anna", printed);
    assert.deepEqual(await signInAs(store, "anna", typed), { name: "anna", token: printed }, typed);
    assert.equal(tried.length, 1, `${typed} is known at once`);
  }
});

test("an o is a 0 on a card, and an i or an l is a 1", async () => {
  const { store, tried } = knowing("anna", "0bcd-1fgh-1kmn-pqrs-2345");
  assert.equal((await signInAs(store, "anna", "Obcd Ifgh lkmn pqrs 2345")).token, "0bcd-1fgh-1kmn-pqrs-2345");
  assert.equal(tried.length, 1);
  assert.deepEqual(tokensToTry("obcd-efgh-jkmn-pqrs-2345"), ["0bcd-efgh-jkmn-pqrs-2345", "obcd-efgh-jkmn-pqrs-2345"], "as it was typed, next");
});

test("a token of 20 letters that is no card's is tried as it was typed too", async () => {
  const { store, tried } = knowing("anna", "AbcdEfghJkmnPqrs2345");
  assert.equal((await signInAs(store, "anna", "AbcdEfghJkmnPqrs2345")).token, "AbcdEfghJkmnPqrs2345");
  assert.equal(tried.length, 2);
  for (const token of ["anna-example", "abcd-efgh-jkmn-pqrs-234", "abcd-efgh-jkmn-pqrs-23456", "abcd_efgh-jkmn-pqrs-2345"]) {
    assert.deepEqual(tokensToTry(token), [token]);
  }
});

test("a card's address has a name and a token, and is none of a view", () => {
  const rows = [
    ["#anna:abcd-efgh", { name: "anna", token: "abcd-efgh" }], ["#anna%3Aabcd", { name: "anna", token: "abcd" }],
    ["#Anna_B-2:a:b%20c", { name: "Anna_B-2", token: "a:b c" }], [`#${"n".repeat(32)}:t`, { name: "n".repeat(32), token: "t" }],
    [`#${"n".repeat(33)}:t`, null], ["#anna:", null], ["#:token", null], ["#an na:token", null], ["#anna:%E0%A4%A", null],
    ["", undefined], ["#", undefined], ["#/board/1", undefined], ["#/x:y", undefined], ["#content", undefined],
  ];
  for (const [hash, card] of rows) assert.deepEqual(cardOf(hash), card, hash);
});

test("a card is taken out of the address, whether it can be read or not, and a view's address is left", () => {
  const taking = (hash) => {
    const left = [];
    const card = takeCard({ location: { hash, pathname: "/club/", search: "?server=/session" }, history: { replaceState: (...given) => left.push(given.at(-1)) } });
    return { card, left };
  };
  assert.deepEqual(taking("#anna:abcd"), { card: { name: "anna", token: "abcd" }, left: ["/club/?server=/session"] });
  assert.deepEqual(taking("#anna:"), { card: null, left: ["/club/?server=/session"] });
  assert.deepEqual(taking("#/board/1"), { card: undefined, left: [] });
});

test("an account is kept as long as it isn't forgotten, and a storage that keeps nothing says so", () => {
  const kept = new Map();
  const storage = { getItem: (name) => kept.get(name) ?? null, setItem: (name, value) => kept.set(name, value), removeItem: (name) => kept.delete(name) };
  assert.equal(readAccount(storage), null);
  assert.equal(keepAccount(storage, { name: "anna", token: "abcd" }), true);
  assert.deepEqual(readAccount(storage), { name: "anna", token: "abcd" });
  forgetAccount(storage);
  assert.equal(kept.size, 0);
  const full = { ...storage, setItem: () => { throw new Error("full"); } };
  assert.deepEqual([keepAccount(full, { name: "anna", token: "abcd" }), keepAccount(null, { name: "anna", token: "abcd" })], [false, false]);
  for (const text of ["?", "null", "3", '{"name":"anna"}', '{"name":1,"token":"x"}']) {
    assert.equal(readAccount({ getItem: () => text }), null, text);
  }
});

// A play as it is entered: card by card, with what the rules say of the next one; or pasted as PBN or LIN; and a claim, which ends it.

import { nextPlace, places, readPlay, sideOf, suits, tricksOf } from "./cards.js";

/** @typedef {import("./messages.js").Place} Place */
/** @typedef {{by: Place|null, strain: import("./messages.js").Strain|null, level: number|null}} Contract as far as it is told */
/** @typedef {{word: string, why: "unknown"|"twice"|"contract"|"leader"|"several"|"order"}} Fault */
/** @typedef {{cards: string[], fault: Fault|null, tricks: number|null}} Play with the declarer's tricks, where a pasted text tells them */

const cardsOfDeal = 52;
const tricksOfDeal = 13;
const ranks = "AKQJT98765432";

/** Whoever leads and follows is known once the declarer and the strain are. */
export const isTold = ({ by, strain }) => by !== null && strain !== null;

/**
 * Cards as they were typed or pasted: words as "S2 D2", the part of a PBN game that begins with its tag Play, or LIN's `pc|..|`.
 * @param {string} text
 * @param {Contract} contract
 * @returns {Play}
 */
export function playOf(text, contract) {
  if (/\[\s*Play\b/iu.test(text)) return playOfPbn(text, contract);
  if (/(^|\|)\s*pc\|/iu.test(text)) return playOfLin(text);
  return { ...readPlay(text), tricks: null };
}

const refused = (word, why) => ({ cards: [], fault: { word, why }, tricks: null });

/** LIN has the cards in the order in which they were played, and what was claimed as the declarer's tricks. */
function playOfLin(text) {
  if ((text.match(/(^|\|)\s*qx\|/giu) ?? []).length > 1) return refused("qx", "several");
  const words = [...text.matchAll(/(?:^|\|)\s*pc\|([^|]*)(?=\|)/giu)].map(([, word]) => word.trim());
  const claimed = /(?:^|\|)\s*mc\|\s*(\d{1,2})\s*\|/iu.exec(text)?.[1];
  return { ...readPlay(words.join(" ")), tricks: claimed === undefined ? null : Number(claimed) };
}

/** PBN 2.1, section 3.5: a line for each trick, each with its columns from the tag's player on, whoever led; "-" where no card was played. */
function playOfPbn(text, contract) {
  const parts = [...text.matchAll(/\[\s*Play\s+"([^"]*)"\s*\]([^[]*)/giu)];
  if (parts.length > 1) return refused("Play", "several");
  const [, first, body] = parts[0] ?? [null, "", ""];
  if (!places.includes(first)) return refused(`Play "${first}"`, "unknown");
  if (!isTold(contract)) return refused("Play", "contract");
  if (first !== nextPlace(contract.by)) return refused(first, "leader");
  const words = body.replace(/\{[^}]*\}|;.*$/gmu, " ").split(/\s+/u).filter((word) => word !== "" && !/^(=\d+=|\$\d+|\^.*)$/u.test(word));
  const ends = words.findIndex((word) => word === "*" || word === "+");
  const noted = (ends < 0 ? words : words.slice(0, ends)).map((word) => word.replace(/[!?]+$/u, ""));
  const result = /\[\s*Result\s+"\^?(\d{1,2})"/iu.exec(text)?.[1];
  return { ...inOrder(noted, first, contract), tricks: result === undefined ? null : Number(result) };
}

function inOrder(noted, first, contract) {
  let cards = [];
  for (let from = 0; from < noted.length; from += 4) {
    const { place: leader } = turnOf(cards, contract) ?? { place: first };
    const trick = [0, 1, 2, 3].map((step) => noted[from + (places.indexOf(leader) - places.indexOf(first) + step + 8) % 4] ?? "-");
    const count = trick.indexOf("-") < 0 ? 4 : trick.indexOf("-");
    if (trick.slice(count).some((word) => word !== "-")) return { cards, fault: { word: trick.slice(count).find((word) => word !== "-"), why: "order" } };
    const read = readPlay([...cards, ...trick.slice(0, count)].join(" "));
    cards = read.cards;
    if (read.fault) return read;
    if (count < 4) break;
  }
  return { cards, fault: null };
}

/**
 * Whose turn it is after some cards.
 * @returns {{place: Place, trick: number, led: string|null, played: {place: Place, card: string}[]}|null} null after the last card
 */
export function turnOf(cards, contract) {
  if (cards.length >= cardsOfDeal) return null;
  const tricks = tricksOf(cards, contract);
  const last = tricks.at(-1);
  if (last && last.winner === null) {
    return { place: nextPlace(last.leader, last.played.length), trick: tricks.length, led: last.played[0].card, played: last.played };
  }
  return { place: last?.winner ?? nextPlace(contract.by), trick: tricks.length + 1, led: null, played: [] };
}

/** Who is known to have no card of a suit, since another was played to it (Law 44C). */
function shownOut(cards, contract) {
  return tricksOf(cards, contract).flatMap(({ played }) =>
    played.slice(1).filter(({ card }) => card[0] !== played[0].card[0]).map(({ place, index }) => ({ place, suit: played[0].card[0], index })));
}

/**
 * The cards that the next player can have to play: by the hands where they are known, and else by what was played.
 * @param {Record<Place, Record<string, string>>|null} hands as `handsOf` has them
 * @returns {Set<string>}
 */
export function expectedCards(cards, contract, hands) {
  const turn = turnOf(cards, contract);
  if (turn === null) return new Set();
  const left = suits.flatMap((suit) => [...ranks].map((rank) => suit + rank)).filter((card) => !cards.includes(card));
  const out = shownOut(cards, contract).filter(({ place }) => place === turn.place).map(({ suit }) => suit);
  const held = left.filter((card) => (hands ? hands[turn.place][card[0]].includes(card[1]) : !out.includes(card[0])));
  const following = hands && turn.led ? held.filter((card) => card[0] === turn.led[0]) : [];
  return new Set(following.length ? following : held);
}

/**
 * The first card of a suit that its player had not followed before: a card was missed or mistyped, or there was a revoke (Law 61).
 * @returns {{card: string, place: Place, trick: number, earlier: number}|null} in which trick it was played, and to which it should have been
 */
export function revokeOf(cards, contract) {
  const out = shownOut(cards, contract);
  const played = tricksOf(cards, contract).flatMap((trick) => trick.played);
  for (const { place, card, index } of played) {
    const before = out.find((each) => each.place === place && each.suit === card[0] && each.index < index);
    if (before) return { card, place, trick: Math.floor(index / 4) + 1, earlier: Math.floor(before.index / 4) + 1 };
  }
  return null;
}

/**
 * How many tricks the declarer's side has won of those that are complete, and how many are left.
 * @returns {{won: number, left: number}}
 */
export function tricksSoFar(cards, contract) {
  const complete = tricksOf(cards, contract).filter(({ winner }) => winner !== null);
  return { won: complete.filter(({ winner }) => sideOf(winner) === sideOf(contract.by)).length, left: tricksOfDeal - complete.length };
}

/** The tricks over or under the contract where the declarer has so many. */
export const overOf = (tricks, { level }) => tricks - level - 6;

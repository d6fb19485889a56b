// Hands, and plays of cards.

/** @typedef {import("./messages.js").Place} Place */

/** The order in which suits are written in a hand, and places around the table. */
export const suits = ["S", "H", "D", "C"];
/** @type {Place[]} */
export const places = ["N", "E", "S", "W"];
const ranks = "AKQJT98765432";
const symbols = { "♠": "S", "♥": "H", "♦": "D", "♣": "C", "♤": "S", "♡": "H", "♢": "D", "♧": "C" };

export const nextPlace = (place, steps = 1) => places[(places.indexOf(place) + steps) % 4];
/** @returns {import("./movement.js").Side} */
export const sideOf = (place) => (place === "N" || place === "S" ? "NS" : "EW");

/**
 * @param {string} deal as a reply has it: "N:" and the four hands from North on, suits from spades to clubs
 * @returns {Record<string, Record<string, string>>|null} for each place its ranks in each suit
 */
export function handsOf(deal) {
  const hands = deal.slice(2).split(" ").map((hand) => hand.split("."));
  const first = places.findIndex((place) => place === deal[0]);
  if (first < 0 || deal[1] !== ":" || hands.length !== 4 || hands.some((hand) => hand.length !== 4)) return null;
  const entries = hands.map((hand, index) =>
    [places[(first + index) % 4], Object.fromEntries(suits.map((suit, number) => [suit, hand[number]]))]);
  return Object.fromEntries(entries);
}

/** High-card points of a hand, the ace counted four. */
export function pointsOf(hand) {
  return Object.values(hand).join("").split("").reduce((sum, rank) => sum + Math.max(0, 4 - ranks.indexOf(rank)), 0);
}

/**
 * Cards as a scorer types them: "S2 D2 c2 SA", "♠10", with blanks, commas or line ends between them.
 * @returns {{cards: string[], fault: {word: string, why: "unknown"|"twice"}|null}}
 */
export function readPlay(text) {
  const words = text.split(/[\s,;]+/u).filter((word) => word !== "");
  const cards = [];
  for (const word of words) {
    const card = cardOf(word);
    if (!card) return { cards, fault: { word, why: "unknown" } };
    if (cards.includes(card)) return { cards, fault: { word, why: "twice" } };
    cards.push(card);
  }
  return { cards, fault: null };
}

function cardOf(word) {
  const letters = [...word.toUpperCase()];
  const suit = symbols[letters[0]] ?? letters[0];
  const rank = letters.slice(1).join("").replace("\uFE0F", "").replace("10", "T");
  return suits.includes(suit) && rank.length === 1 && ranks.includes(rank) ? suit + rank : null;
}

/**
 * The tricks of a play: who played which card, and who won. A play that breaks off leaves its last trick open.
 * @param {string[]} cards in the order in which they were played
 * @param {import("./messages.js").PlayedResult} result
 */
export function tricksOf(cards, result) {
  const tricks = [];
  let leader = nextPlace(result.by);
  for (let from = 0; from < cards.length; from += 4) {
    const played = cards.slice(from, from + 4).map((card, index) => ({
      place: nextPlace(leader, index),
      card,
      index: from + index,
    }));
    const winner = played.length === 4 ? winnerOf(played, result.strain) : null;
    tricks.push({ leader, played, winner });
    leader = winner ?? leader;
  }
  return tricks;
}

function winnerOf(played, strain) {
  const best = played.reduce((one, other) => (beats(other.card, one.card, strain) ? other : one));
  return best.place;
}

/** Whether a later card of a trick beats the best one so far (Law 44): a higher one of its suit, or a first trump. */
function beats(card, best, strain) {
  if (card[0] === best[0]) return ranks.indexOf(card[1]) < ranks.indexOf(best[1]);
  return card[0] === strain;
}

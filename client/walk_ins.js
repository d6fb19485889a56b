// A player who comes without a card: the name for signing in, and the commands that make a contestant of her who sits where she is to.

import { command } from "./messages.js";

/** @typedef {{shown: string, name: string, digest: string}} WalkIn */
/** @typedef {{pair: string, place: import("./messages.js").Place, leaves: string|null}} Seat with who loses it, if somebody sits there */

// so that a number has room behind them
const mostLetters = 24;
const withoutMarks = { ß: "ss", æ: "ae", œ: "oe", ø: "o", đ: "d", ð: "d", þ: "th", ł: "l", ı: "i", ħ: "h", ŧ: "t", ŋ: "n" };

/** "Jean-René Müller" is "jeanrene": letters and digits of the first word in ASCII, or "guest" where none are left. */
function wordOf(shown) {
  const plain = shown.normalize("NFKD").toLowerCase().replace(/[ßæœøđðþłıħŧŋ]/gu, (letter) => withoutMarks[letter]);
  const words = plain.split(/\s+/u).map((word) => word.replace(/[^a-z0-9]+/gu, ""));
  return (words.find((word) => word !== "") ?? "guest").slice(0, mostLetters);
}

/**
 * A name for signing in that no account has yet.
 * @param {string} shown the name to show
 * @param {string[]} taken
 */
export function signInNameFor(shown, taken) {
  const word = wordOf(shown);
  for (let number = 1; ; number += 1) {
    const name = number === 1 ? word : word + number;
    if (!taken.includes(name)) return name;
  }
}

/** Whether a text can be a name to show: no blank at its ends, no control, no mark that turns the direction of writing. */
export function canBeShown(text) {
  const bytes = new TextEncoder().encode(text).length;
  const isEnded = /^\p{White_Space}|\p{White_Space}$/u.test(text);
  return bytes >= 1 && bytes <= 64 && !isEnded && !/[\p{Cc}\p{Cs}\u061C\u200E\u200F\u2028-\u202E\u2066-\u2069]/u.test(text);
}

/** Who sits at a place of a pair, or null. */
export const sitsAt = (facts, pair, place) => facts.seats.find((seat) => seat[1] === pair && seat[2] === place)?.[0] ?? null;

/**
 * What the commands do, in their order: a step each.
 * @param {WalkIn} walkIn
 * @param {Seat|null} seat null where no seat is given
 * @param {number} edition names to show are of the second
 * @returns {{step: "add"|"rename"|"assign"|"unseat"|"seat", command: object}[]}
 */
export function stepsOf({ shown, name, digest }, seat, edition) {
  /** @type {{step: "add"|"rename"|"assign"|"unseat"|"seat", command: object}[]} */
  const steps = [{ step: "add", command: command.addUser(name, digest) }];
  if (edition === 2) steps.push({ step: "rename", command: command.rename(name, shown) });
  steps.push({ step: "assign", command: command.assign(name, "Contestant") });
  if (seat?.leaves) steps.push({ step: "unseat", command: command.unseat(seat.leaves) });
  if (seat) steps.push({ step: "seat", command: command.seat(name, seat.pair, seat.place) });
  return steps;
}

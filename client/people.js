// How people are named: by the name to show that the status tells of them, else by the name for signing in.

import { playersOf } from "./public_facts.js";
import { apart } from "./texts.js";

/** @typedef {import("./public_facts.js").Facts} Facts */

/** @param {Facts|null} facts */
export const nameOf = (facts, user) => String(facts?.shown.get(user) ?? user);

export const hasShownName = (facts, user) => facts?.shown.has(user) ?? false;

/** For a sentence at a desk, where the name for signing in counts: "Anna Müller (anna)". */
export const personText = (facts, user) => (hasShownName(facts, user) ? `${apart(nameOf(facts, user))} (${user})` : user);

/** The players of a pair in one field of a spreadsheet: "Anna Müller – Ben Roth". */
export const playersText = (facts, pair) => playersOf(facts, pair).map((user) => nameOf(facts, user)).join(" – ");

/** The same for a sentence, with the pair behind: "Anna Müller – Ben Roth (NS1)". */
export function pairText(facts, pair) {
  const players = playersOf(facts, pair).map((user) => (hasShownName(facts, user) ? apart(nameOf(facts, user)) : user));
  return players.length ? `${players.join(" – ")} (${pair})` : pair;
}

// A result as it is typed: a draft with a part for each question, and the result that follows when all are answered.

/**
 * @typedef {object} Draft
 * @property {boolean} passedOut
 * @property {number|null} level
 * @property {import("./messages.js").Strain|null} strain
 * @property {import("./messages.js").Place|null} by the declarer
 * @property {number} doubled
 * @property {number|null} over tricks above the contract, or below it
 * @property {string} play the cards as they were typed
 */

/** @returns {Draft} */
export const emptyDraft = () => ({
  passedOut: false,
  level: null,
  strain: null,
  by: null,
  doubled: 0,
  over: null,
  play: "",
});

/**
 * A draft that says what stands already.
 * @param {import("./messages.js").Result} result
 * @param {string[]} cards
 * @returns {Draft}
 */
export function draftOf(result, cards) {
  if (result === "pass") return { ...emptyDraft(), passedOut: true };
  const { by, doubled, level, strain, tricks } = result;
  return { ...emptyDraft(), level, strain, by, doubled, over: tricks - level - 6, play: cards.join(" ") };
}

/** How many tricks above or below a contract there can be: made first, then set. */
export function oversOf(level) {
  const made = Array.from({ length: 8 - level }, (_, index) => index);
  const set = Array.from({ length: level + 6 }, (_, index) => -index - 1);
  return { made, set };
}

/** The draft with one part changed. Tricks that the new level can't have are asked again. */
export function changed(draft, part, value) {
  const next = { ...draft, [part]: value };
  if (part === "level" && next.over !== null && (next.over > 7 - value || next.over < -value - 6)) next.over = null;
  return next;
}

/** Which parts are still to be told, in the order of the form. */
export function missingParts(draft) {
  return draft.passedOut ? [] : ["level", "strain", "by", "over"].filter((part) => draft[part] === null);
}

/** @returns {import("./messages.js").Result|null} the result, or null where a part is missing */
export function resultOf(draft) {
  if (draft.passedOut) return "pass";
  if (missingParts(draft).length) return null;
  const { by, doubled, level, strain, over } = draft;
  return { by, doubled, level, strain, tricks: level + 6 + over };
}

export const isSameDraft = (one, other) => Object.keys(emptyDraft()).every((part) => one[part] === other[part]);

/** A draft from what was kept, whatever that is. */
export function readDraft(kept) {
  const draft = emptyDraft();
  if (kept === null || typeof kept !== "object") return draft;
  for (const part of Object.keys(draft)) if (part in kept && isPart(part, kept[part])) draft[part] = kept[part];
  return draft;
}

function isPart(part, value) {
  if (part === "passedOut") return typeof value === "boolean";
  if (part === "play") return typeof value === "string";
  if (part === "doubled") return [0, 1, 2].includes(value);
  if (value === null) return true;
  if (part === "strain") return ["C", "D", "H", "S", "N"].includes(value);
  if (part === "by") return ["N", "E", "S", "W"].includes(value);
  return Number.isInteger(value) && (part === "level" ? value >= 1 && value <= 7 : value >= -13 && value <= 6);
}

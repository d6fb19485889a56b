// What a status says of the occasion, where its session says it: title and date, and what the numbers of reasons mean.

/** @typedef {import("./public_facts.js").Facts} Facts */

const longest = 80;

/**
 * The name of a file that is downloaded: date and title before what it is, without what a file system may not take.
 * @param {Facts} facts
 */
export function fileNameOf({ date, title }, kind) {
  const known = (text) => String(text ?? "").replace(/[\p{Cc}\p{Cf}\\/:*?"<>|]+/gu, " ").replace(/\s+/gu, " ").trim();
  const cut = [...known(title)].slice(0, longest).join("").trim();
  return `${[known(date), cut, kind].filter(Boolean).join(" ")}.csv`;
}

/** What a reason's number means, or "" where the session doesn't say it. */
export const reasonOf = ({ reasons }, code) => String(reasons?.[code - 1] ?? "");

// How long the page waits before it asks again, in milliseconds.

const atDesk = 1_500;
const shown = 8_000;
const hidden = 60_000;
const away = 1_500;
const longAway = 5_000;
const longAwayFrom = 60;

/** Between two answers that are older than what is known already: whether the server began anew is to be known soon. */
export const pauseInDoubt = 400;

/**
 * Whoever looks at a desk hears within two seconds that the server is away; and who looks at the page, that it is back.
 * @param {number} failures how often in a row the server couldn't be reached
 * @param {boolean} isHidden whether nobody looks at the page
 * @param {number} chance from 0 to 1, so that the pages of a room don't ask all at once
 * @param {boolean} isDesk whether results, rounds or seats are changed in the present view
 * @returns {number}
 */
export function pauseOf(failures, isHidden, chance, isDesk = false) {
  const pause = failures === 0 ? usualPause(isHidden, isDesk) : pauseAway(failures, isHidden);
  return Math.round(pause * (0.8 + 0.4 * chance));
}

function usualPause(isHidden, isDesk) {
  if (isHidden) return hidden;
  return isDesk ? atDesk : shown;
}

function pauseAway(failures, isHidden) {
  if (isHidden) return Math.min(hidden, 1_000 * 2 ** Math.min(failures - 1, 10));
  return failures < longAwayFrom ? away : longAway;
}

// The clock of a round, which a director starts: this page's own, which nobody else sees and no server knows. It is kept in the tab's
// own storage, so that it outlives a reload.

/** @typedef {{round: number, ends: number}} Running `ends` in milliseconds as `Date.now` tells them */

const name = "tevyhora/clock";
const tick = 500;
export const mostMinutes = 240;

/** "12:05" to the end, and "+1:30" after it. */
export function leftText(milliseconds) {
  const seconds = Math.ceil(milliseconds / 1000);
  const [minutes, rest] = [Math.floor(Math.abs(seconds) / 60), Math.abs(seconds) % 60];
  return `${seconds < 0 ? "+" : ""}${minutes}:${String(rest).padStart(2, "0")}`;
}

/** @returns {number|null} whole minutes, from 1 to the most */
export function minutesOf(typed) {
  const minutes = /^\d{1,3}$/u.test(typed.trim()) ? Number(typed) : 0;
  return minutes >= 1 && minutes <= mostMinutes ? minutes : null;
}

export class RoundClock {
  /** @type {Running|null} */
  #running;
  #storage;
  #now;
  #onTick;
  #onOver;
  #timer = null;

  /**
   * @param {Storage|null} storage null where the browser offers none
   * @param {{onTick?: () => void, onOver?: (round: number) => void, now?: () => number}} page what to do each moment that it runs,
   *   and once where its time is over
   */
  constructor(storage, { onTick = () => {}, onOver = () => {}, now = Date.now } = {}) {
    [this.#storage, this.#onTick, this.#onOver, this.#now] = [storage, onTick, onOver, now];
    this.#set(read(storage));
  }

  start(round, minutes) {
    this.#set({ round, ends: this.#now() + 60_000 * minutes });
  }

  stop() {
    this.#set(null);
  }

  /** What is left in a round, in milliseconds, or null where no clock runs in it. */
  leftIn(round) {
    return this.#running?.round === round ? this.#running.ends - this.#now() : null;
  }

  #set(running) {
    clearInterval(this.#timer);
    this.#running = running;
    keep(this.#storage, running);
    if (running === null) return;
    let isOver = running.ends <= this.#now();
    this.#timer = setInterval(() => {
      this.#onTick();
      if (isOver || this.#now() < running.ends) return;
      isOver = true;
      this.#onOver(running.round);
    }, tick);
    this.#timer.unref?.();
  }
}

/** @returns {Running|null} */
function read(storage) {
  try {
    const kept = JSON.parse(storage?.getItem(name) ?? "null");
    return Number.isSafeInteger(kept?.round) && Number.isSafeInteger(kept.ends) ? { round: kept.round, ends: kept.ends } : null;
  } catch {
    return null;
  }
}

function keep(storage, running) {
  try {
    if (running === null) storage?.removeItem(name);
    else storage?.setItem(name, JSON.stringify(running));
  } catch {
    // A full or forbidden storage keeps it for this view of the page alone.
  }
}

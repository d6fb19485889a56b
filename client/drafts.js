// What a scorer has typed, kept for this tab until the server has taken it: in memory, and in the tab's own storage so
// that a reload loses nothing. Never a token.

import { emptyDraft, readDraft } from "./results.js";

/** @typedef {"enter"|"confirm"|"correct"} Step */

export class Drafts {
  #storage;
  #kept = new Map();

  /** @param {Storage|null} storage null where the browser offers none */
  constructor(storage) {
    this.#storage = storage;
  }

  /** @returns {import("./results.js").Draft} what was typed, or what a form begins with where nothing was */
  read(user, step, table, board, first = emptyDraft()) {
    const kept = this.#get(nameOf(user, step, table, board));
    return kept === null ? first : readDraft(kept);
  }

  write(user, step, table, board, draft) {
    this.#set(nameOf(user, step, table, board), draft);
  }

  remove(user, step, table, board) {
    this.#set(nameOf(user, step, table, board), null);
  }

  /** How far the scorer is with a cell: whether it was entered from this tab, and not confirmed yet. */
  isEntered(user, table, board) {
    return this.#get(nameOf(user, "entered", table, board)) === true;
  }

  setEntered(user, table, board, isEntered) {
    this.#set(nameOf(user, "entered", table, board), isEntered ? true : null);
  }

  /** Whether what was entered or confirmed from this tab was lost by a start of the server. */
  isLost(user, table, board) {
    return this.#get(nameOf(user, "entered", table, board)) === lost;
  }

  setLost(user, table, board) {
    this.#set(nameOf(user, "entered", table, board), lost);
  }

  /** The server was started again without what was entered: all that a user entered from this tab and didn't confirm is lost. */
  loseEntries(user) {
    for (const name of this.#names()) {
      if (name.startsWith(nameOf(user, "entered", "")) && this.#get(name) === true) this.#set(name, lost);
    }
  }

  #names() {
    try {
      return [...new Set([...this.#kept.keys(), ...Object.keys(this.#storage ?? {})])];
    } catch {
      return [...this.#kept.keys()];
    }
  }

  /** The tab's storage is asked once for each: nothing else writes there. */
  #get(name) {
    if (!this.#kept.has(name)) this.#kept.set(name, this.#stored(name));
    return this.#kept.get(name);
  }

  #stored(name) {
    try {
      return JSON.parse(this.#storage?.getItem(name) ?? "null");
    } catch {
      return null;
    }
  }

  #set(name, value) {
    this.#kept.set(name, value);
    try {
      if (value === null) this.#storage?.removeItem(name);
      else this.#storage?.setItem(name, JSON.stringify(value));
    } catch {
      // A full or forbidden storage leaves what is kept in memory.
    }
  }
}

const lost = "lost";
const nameOf = (...parts) => ["tevyhora", ...parts].join("/");

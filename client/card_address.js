// A card's address: a name and a token behind "#". This module is loaded and run before all others, so that the token stands in
// the address no longer than it must.

/** @typedef {{name: string, token: string}} Account */

const form = /^#([\w-]{1,32}):(.{1,256})$/su;

/**
 * @param {string} hash the part of an address from "#" on
 * @returns {Account|null|undefined} null where it is like a card's and can't be read, undefined where it is a view's
 */
export function cardOf(hash) {
  const isView = hash === "" || hash.startsWith("#/");
  if (isView || !/:|%3A/iu.test(hash)) return undefined;
  try {
    const [, name, token] = form.exec(decodeURIComponent(hash)) ?? [];
    return name ? { name, token } : null;
  } catch {
    return null;
  }
}

/** Takes a card out of the page's address, in place of which there is none then: no button leads back to it. */
export function takeCard({ location, history } = globalThis) {
  const card = cardOf(location?.hash ?? "");
  if (card !== undefined) history.replaceState(null, "", location.pathname + location.search);
  return card;
}

let first = takeCard();

/** The card of the address with which the page was opened: told once. */
export function firstCard() {
  const card = first;
  first = undefined;
  return card;
}

// Staying signed in: where its user asks for it, name and token are kept in the tab's own storage, so that a reload signs in again.

/** @typedef {import("./card_address.js").Account} Account */

const name = "tevyhora/account";

/** @param {Storage|null} storage null where the browser offers none @returns {Account|null} */
export function readAccount(storage) {
  try {
    const kept = JSON.parse(storage?.getItem(name) ?? "null");
    return typeof kept?.name === "string" && typeof kept.token === "string" ? { name: kept.name, token: kept.token } : null;
  } catch {
    return null;
  }
}

/** @returns {boolean} whether it is kept: a storage may be full or forbidden */
export function keepAccount(storage, account) {
  try {
    storage?.setItem(name, JSON.stringify(account));
    return readAccount(storage) !== null;
  } catch {
    return false;
  }
}

export function forgetAccount(storage) {
  try {
    storage?.removeItem(name);
  } catch {
    // What can't be removed couldn't be kept.
  }
}

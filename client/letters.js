// Whether suits are drawn as letters: kept in the tab's own storage, so that it outlives a reload.

const name = "tevyhora/letters";

/** @param {Storage|null} storage null where the browser offers none */
export function readLetters(storage) {
  try {
    return storage?.getItem(name) === "true";
  } catch {
    return false;
  }
}

export function keepLetters(storage, hasLetters) {
  try {
    storage?.setItem(name, String(hasLetters));
  } catch {
    // A full or forbidden storage keeps it for this view of the page alone.
  }
}

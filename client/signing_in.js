// Signing in with a name and a token as they were typed, pasted or read from a card.

/** The name without blanks around it, and where it has capitals, the same without them: capitals count to the server. */
export function namesToTry(typed) {
  const name = typed.trim();
  return [...new Set([name, name.toLowerCase()])];
}

const lettersOfCard = 20;

/**
 * A card's token as it is printed, in groups of four letters, however it was typed: none of them is an o, an i or an l, so 0 and 1 are
 * meant. Any other token without blanks around it.
 */
export function tokensToTry(typed) {
  const token = typed.trim();
  const letters = token.replace(/[\s\p{Pd}]+/gu, "");
  if (letters.length !== lettersOfCard || !/^[a-z0-9]+$/iu.test(letters)) return [token];
  const printed = letters.toLowerCase().match(/.{4}/gu).join("-");
  return [...new Set([printed.replaceAll("o", "0").replace(/[il]/gu, "1"), printed, token])];
}

/**
 * @param {{signIn: (name: string, token: string) => Promise<boolean>}} store
 * @returns {Promise<import("./card_address.js").Account|null>} who is signed in, with the token as it is known, or null where nobody
 */
export async function signInAs(store, typedName, typedToken) {
  for (const name of namesToTry(typedName)) {
    for (const token of tokensToTry(typedToken)) {
      if (await store.signIn(name, token)) return { name, token };
    }
  }
  return null;
}

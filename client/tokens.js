// Tokens of new users, and their digests.

const lettersOfToken = 20;
// those of Crockford's base 32, of which none is taken for another, as on the cards that `bridge_server prepare` makes
const letters = "0123456789abcdefghjkmnpqrstvwxyz";

/** Whether the browser offers SHA-256 here: over HTTPS, and on this computer. */
export const canDigest = (scope = globalThis) => Boolean(scope.isSecureContext && scope.crypto?.subtle);

/** A random token of 100 bits as it stands on a card: 20 letters in groups of four, as "abcd-efgh-jkmn-pqrs-0123". */
export function newToken(scope = globalThis) {
  const bytes = scope.crypto.getRandomValues(new Uint8Array(lettersOfToken));
  return Array.from(bytes, (byte) => letters[byte % letters.length]).join("").match(/.{4}/gu).join("-");
}

/** The SHA-256 of a text's bytes in UTF-8, as 64 hexadecimal digits. */
export async function digestOf(token, scope = globalThis) {
  const sum = new Uint8Array(await scope.crypto.subtle.digest("SHA-256", new TextEncoder().encode(token)));
  return Array.from(sum, (byte) => byte.toString(16).padStart(2, "0")).join("");
}

export const isDigest = (text) => /^[0-9a-f]{64}$/u.test(text);

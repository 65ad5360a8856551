// The key of a request that acts, which goes with it as Idempotency-Key. An office on several machines does a request once
// for each key; a bare office does not read it, so nothing is promised there.

/** The statuses of an answer to the request itself: what became of it is known then. */
const SETTLED = [200, 400, 409, 422];

/** The keys of what was sent and has no such answer yet, by what was sent. */
const kept = new Map();

/** A key that nobody else has, also on a page that did not come over https. */
function newKey() {
  if (crypto.randomUUID) return crypto.randomUUID();
  return Array.from(crypto.getRandomValues(new Uint8Array(16)), (byte) => byte.toString(16).padStart(2, "0")).join("");
}

/**
 * The key to send this with: a new one, or the one that it had before if its answer was lost.
 * @param {string} sent all that makes it the same request, with what was shown when it was asked for
 */
export const keyFor = (sent) => kept.get(sent) ?? newKey();

/**
 * Notes what came of a request. Once the office has answered one, all keys before it are forgotten, since from then on the
 * same acts are meant anew.
 * @param {string} sent
 * @param {string} key
 * @param {number} status that of the answer
 */
export function note(sent, key, status) {
  if (SETTLED.includes(status)) kept.clear();
  else kept.set(sent, key);
}

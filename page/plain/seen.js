// What the page has seen of an office on several machines, so that no machine shows it an earlier state: the position of the
// newest entry of the log that an answer was of. A bare office names none. A tab remembers it, also when the page is loaded anew.

const NAME = "office-position ";

/** The positions of this page, by office, for a browser that keeps nothing. */
const seen = new Map();

/** What the tab keeps; nothing where there is no browser, or it may not keep anything. */
function storage() {
  try {
    return globalThis.sessionStorage;
  } catch {
    return undefined;
  }
}

/** @param {string} office its address */
const positionOf = (office) => Math.max(seen.get(office) ?? 0, Number(storage()?.getItem(NAME + office)) || 0);

/**
 * The lines of a reading by which it is no older than what was seen.
 * @param {string} office its address
 * @returns {Record<string, string>}
 */
export function linesFor(office) {
  const position = positionOf(office);
  return position > 0 ? { "Office-After": String(position) } : {};
}

/**
 * Notes the position of an answer. One of a request whose end is unknown is not noted.
 * @param {string} office its address
 * @param {number} status
 * @param {string | null} position what the answer has as Office-Position
 */
export function noteSeen(office, status, position) {
  if (status >= 500 || !/^[0-9]{1,15}$/.test(position ?? "") || Number(position) <= positionOf(office)) return;
  keep(office, Number(position));
}

/**
 * Whether an answer says that the log ends before what was seen, as after a restore: then that is forgotten.
 * @param {string} office its address
 * @param {number} status
 */
export function isOfAnother(office, status) {
  if (status !== 412) return false;
  keep(office, 0);
  return true;
}

function keep(office, position) {
  seen.set(office, position);
  try {
    storage()?.setItem(NAME + office, String(position));
  } catch {
    // a tab that keeps nothing remembers it until the page is loaded anew
  }
}

// A certificate: its lines, its sum, and whether both are as they must be (docs/MODEL.md).

const DIGEST = /^[0-9a-f]{64}$/;
const HEAD = [["CERTIFICATE", "run"], ["DAY", "day"], ["BY", "by"], ["ENDED", "ended"], ["SENT", "sent"], ["SKIPPED", "skipped"]];
const COUNTS = { ended: ["destroyed", "transferred"], sent: ["sent"], skipped: ["skipped"] };
const LAST_LINE = "SHA256 ".length + 64 + 1;

export const hex = (bytes) => Array.from(bytes, (byte) => byte.toString(16).padStart(2, "0")).join("");

/** The SHA-256 of these bytes, or null where this browser computes none, as on a page that did not come over https. */
export async function digestOf(bytes) {
  if (!globalThis.crypto?.subtle) return null;
  return hex(new Uint8Array(await crypto.subtle.digest("SHA-256", bytes)));
}

/** The sum in the last line and the bytes that it is of, or null where the last line has none. */
export function sealOf(bytes) {
  const at = bytes.length - LAST_LINE;
  if (at < 0 || (at > 0 && bytes[at - 1] !== 10) || bytes[bytes.length - 1] !== 10) return null;
  const line = new TextDecoder().decode(bytes.subarray(at, bytes.length - 1));
  const written = line.slice("SHA256 ".length);
  return line.startsWith("SHA256 ") && DIGEST.test(written) ? { written, sealed: bytes.subarray(0, at) } : null;
}

/** Whether a certificate agrees with its last line: `agrees`, `differs`, `noSum` or `noCrypto`, with both sums. */
export async function judged(bytes) {
  const seal = sealOf(bytes);
  if (!seal) return { verdict: "noSum" };
  const computed = await digestOf(seal.sealed);
  if (computed === null) return { verdict: "noCrypto", written: seal.written };
  return { verdict: computed === seal.written ? "agrees" : "differs", written: seal.written, computed };
}

/** An entry. What was skipped always names a hold, so `-` is its code there, and nowhere else. */
function entryOf(words) {
  const [, record, outcome, ref, code, schedule, due, word, by, length, digest] = words;
  const hold = word === "-" && outcome !== "skipped" ? null : word;
  return { record, outcome, ref, class: code, schedule, due, hold, by, length, digest };
}

function isEntry(words) {
  return words.length === 11 && /^[1-9]\d*$/.test(words[1]) && Object.values(COUNTS).flat().includes(words[2]) && /^\d+$/.test(words[9]) && DIGEST.test(words[10]);
}

/** What the text of a certificate tells, line by line, and where it is not of its form. */
export function read(text) {
  const told = { entries: [], aggregations: [], wrong: [] };
  const lines = text.split("\n");
  if (lines.pop() !== "") told.wrong.push({ line: lines.length + 1 });
  lines.forEach((line, at) => readLine(told, line, at, lines.length));
  compareCounts(told);
  return told;
}

function readLine(told, line, at, count) {
  const wrong = () => told.wrong.push({ line: at + 1 });
  if (at < HEAD.length) {
    const [word, name] = HEAD[at];
    if (line.startsWith(`${word} `)) told[name] = line.slice(word.length + 1);
    else wrong();
  } else if (at === count - 1) {
    if (!/^SHA256 [0-9a-f]{64}$/.test(line)) wrong();
  } else if (line.startsWith("ENTRY\t") && told.spent === undefined) {
    const words = line.split("\t");
    if (isEntry(words)) told.entries.push(entryOf(words));
    else wrong();
  } else if (/^SPENT \d+$/.test(line) && told.spent === undefined) {
    told.spent = line.slice("SPENT ".length);
  } else if (/^AGGREGATION\t[1-9]\d*\t[^\t]+$/.test(line) && told.spent !== undefined) {
    const [, number, ref] = line.split("\t");
    told.aggregations.push({ number, ref });
  } else wrong();
}

function compareCounts(told) {
  const there = (outcomes) => told.entries.filter((entry) => outcomes.includes(entry.outcome)).length;
  for (const [name, outcomes] of Object.entries(COUNTS)) compareCount(told, name, there(outcomes));
  compareCount(told, "spent", told.aggregations.length);
}

function compareCount(told, name, there) {
  if (told[name] !== String(there)) told.wrong.push({ word: name.toUpperCase(), told: told[name] ?? "", there });
}

/**
 * Which entries are skipped as the run before skipped them, for the same due day and under the same hold.
 * @param {object[]} entries
 * @param {object[]} before the entries of the run before
 */
export function skippedAgain(entries, before) {
  const keyOf = ({ record, due, hold }) => JSON.stringify([record, due, hold]);
  const skipped = new Set(before.filter(({ outcome }) => outcome === "skipped").map(keyOf));
  const isAgain = (entry) => entry.outcome === "skipped" && skipped.has(keyOf(entry));
  return { fresh: entries.filter((entry) => !isAgain(entry)), again: entries.filter(isAgain) };
}

export const sameBytes = (one, other) => one.length === other.length && one.every((byte, at) => byte === other[at]);

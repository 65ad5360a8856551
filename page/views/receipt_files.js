// The files of records in an archive's list of digests: the archive has a record once it has each of its files too.
import { digestIn, digestsIn } from "../plain/receipts.js";
import { filesOf } from "../vault.js";

/** So many requests are under way at once. */
const AT_ONCE = 4;

/** The digests of each record's files, once they were asked for. @type {Map<number, string[]>} */
const known = new Map();
/** Whether the office said that it has no vault. */
let hasNone = false;

/** Asks for the files of a record: their digests, or null where that is not known. */
async function askFor(number) {
  if (known.has(number)) return known.get(number);
  if (hasNone) return [];
  const { files, answer } = await filesOf(number);
  hasNone ||= answer?.status === 404;
  if (files) known.set(number, files.map(({ sha256 }) => sha256));
  return files || hasNone ? known.get(number) ?? [] : null;
}

/**
 * What a list says of records whose content it has: each that lacks a file in it, or whose files are not known, is
 * marked; a line that is of such a file is not wrong.
 * @param {{ number: number, digest?: string }[]} items
 * @param {string} text
 * @param {number[]} wrong the lines that name no record
 */
export async function withFiles(items, text, wrong) {
  const there = digestsIn(text);
  const asked = items.filter(({ digest }) => digest);
  const files = new Set();
  let next = 0;
  const work = async () => {
    while (next < asked.length) {
      const it = asked[next];
      next += 1;
      const digests = await askFor(it.number);
      it.lacks = digests === null || digests.some((one) => !there.has(one));
      for (const one of digests ?? []) files.add(one);
    }
  };
  await Promise.all(Array.from({ length: AT_ONCE }, work));
  const lines = text.split(/\r?\n/);
  return { items, wrong: wrong.filter((at) => !files.has(digestIn(lines[at - 1]))) };
}

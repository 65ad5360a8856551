// An archive's list of what it received, as somebody pastes it: in each line a SHA-256 and the number or the ref of a record.

const DIGEST = /(?:^|[^0-9a-f])([0-9a-f]{64})(?![0-9a-f])/i;

/** The digest in a line, if there is one. */
export const digestIn = (line) => DIGEST.exec(line)?.[1].toLowerCase();

/** All digests in a list. */
export const digestsIn = (text) => new Set(text.split(/\r?\n/).map(digestIn).filter(Boolean));

/** The words of a line without its digest: of a list as sha256sum writes it, of a CSV, or of a sheet. */
const wordsOf = (line) => line.split(/[\t;,]|\s{2,}|\s\*/).map((word) => word.trim().replace(/^["']|["']$/g, ""));

/** The last part of a path, without the extension that a file may have. */
const baseOf = (word) => word.replace(/^.*\//, "").replace(/\.[A-Za-z0-9]{1,5}$/, "");

/** The number of a record in the name that office-transfer gives to its content, as data/000004_MAP-1_Survey.txt. */
const IN_BAG = /(?:^|\/)(?=\d{6})0*([1-9]\d*)_[^/]*(?:\/manifest\.txt)?$/;

/** What a word may mean: itself, the name of a file without its folder and its extension, the number in such a name. */
const meantBy = (word) => [word, baseOf(word), baseOf(word).split(" ")[0], IN_BAG.exec(word)?.[1]];

/** What a record may be called in such a list. */
const namesOf = ({ number, ref }) => [String(number), `record-${number}`, ref, ref.replaceAll("/", "-")];

/**
 * What a list says of records: each record's digest by its number, and the lines that say nothing, by their numbers.
 * A list of one digest alone is that of one record.
 * @param {string} text
 * @param {{ number: number, ref: string }[]} records
 * @returns {{ digests: Map<number, string>, wrong: number[] }}
 */
export function receiptsOf(text, records) {
  const named = new Map();
  for (const record of records) for (const name of namesOf(record)) named.set(name, record.number);
  const digests = new Map();
  const wrong = [];
  const lines = text.split(/\r?\n/).map((line, at) => [line.trim(), at + 1]).filter(([line]) => line);
  for (const [line, at] of lines) {
    const digest = digestIn(line);
    const words = digest ? wordsOf(line.replace(new RegExp(digest, "i"), "\t")) : [];
    const alone = digest && lines.length === 1 && records.length === 1 && !words.some(Boolean) ? records[0].number : undefined;
    const number = alone ?? words.flatMap(meantBy).map((name) => named.get(name)).find(Boolean);
    if (number === undefined || (digests.has(number) && digests.get(number) !== digest)) wrong.push(at);
    else digests.set(number, digest);
  }
  return { digests, wrong };
}

// The catalogue: a search over many refs and titles, and the tree of aggregations with what is in it.

/** What becomes of each letter beyond ASCII, once it was looked up: a city's texts have few of them, each many times. */
const LETTERS = new Map();

function foldedLetter(letter) {
  let known = LETTERS.get(letter);
  if (known === undefined) {
    known = letter.normalize("NFD").replace(/\p{M}/gu, "").replaceAll("ß", "ss");
    LETTERS.set(letter, known);
  }
  return known;
}

/** A text as it is searched: without case and accents, ß as ss. */
export const folded = (text) => text.toLowerCase().replace(/[^\u0000-\u007f]/gu, foldedLetter);

/** The words of a question, the longest first, which is the rarest as a rule. */
function wordsOf(question) {
  const words = folded(question).split(/\s+/).filter(Boolean);
  return words.sort((one, other) => other.length - one.length);
}

/** Where each line of a text begins, and where the last one ends. */
function startsOf(text) {
  const starts = [0];
  for (let at = text.indexOf("\n"); at !== -1; at = text.indexOf("\n", at + 1)) starts.push(at + 1);
  return Uint32Array.from(starts);
}

/**
 * Lines as they are searched.
 * @param {string} lines each with its end
 * @returns {{ text: string, starts: Uint32Array }}
 */
export function searchable(lines) {
  const text = folded(lines);
  return { text, starts: startsOf(text) };
}

/** Many rows as one long text, a line a row, so that a word is looked for in all of them at once. It is made once it is wanted. */
export class Index {
  #textOf;
  #made = null;
  #coming = null;

  /**
   * @param {any[]} rows
   * @param {function(any): string} textOf the text of a row, on one line
   */
  constructor(rows, textOf) {
    this.rows = rows;
    this.#textOf = textOf;
  }

  #lines() {
    return `${this.rows.map(this.#textOf).join("\n")}\n`;
  }

  /**
   * Has it made by a function that takes its time, as in a worker.
   * @param {function(string): Promise<{ text: string, starts: Uint32Array }>} make
   */
  async ready(make) {
    if (this.#made !== null) return;
    this.#coming ??= make(this.#lines());
    this.#made = await this.#coming;
  }

  #its() {
    this.#made ??= searchable(this.#lines());
    return this.#made;
  }

  get text() {
    return this.#its().text;
  }

  /** Where the line of each row begins. */
  get starts() {
    return this.#its().starts;
  }
}

export const indexOf = (rows, textOf) => new Index(rows, textOf);

/**
 * The positions of the rows that have all words of the question and that `takes` takes, by position.
 * @param {Index} index
 * @param {string} question
 * @param {function(number): boolean} takes
 * @returns {number[]}
 */
export function positions(index, question, takes = () => true) {
  const [first = "", ...others] = wordsOf(question);
  const found = [];
  if (!first) {
    for (let row = 0; row < index.rows.length; row += 1) if (takes(row)) found.push(row);
    return found;
  }
  const { starts, text } = index;
  let row = 0;
  for (let at = text.indexOf(first); at !== -1; at = text.indexOf(first, starts[row + 1])) {
    while (starts[row + 1] <= at) row += 1;
    const line = others.length ? text.slice(starts[row], starts[row + 1]) : "";
    if (others.every((word) => line.includes(word)) && takes(row)) found.push(row);
  }
  return found;
}

/** The rows that have all words of the question and that `takes` takes: how many, and the first ones up to `most`. */
export function search(index, question, most, takes = () => true) {
  const { rows } = index;
  const found = positions(index, question, (at) => takes(rows[at]));
  return { count: found.length, found: found.slice(0, most).map((at) => rows[at]) };
}

/** The number of a row: a record is a list, an aggregation an object. */
export const numberIn = (row) => (Array.isArray(row) ? row[0] : row.number);

/** The position of the first row whose number is this one or above, among rows in the order of their numbers. */
export function firstFrom(rows, number) {
  let [low, high] = [0, Math.min(rows.length, number)];
  while (low < high) {
    const middle = (low + high) >> 1;
    if (numberIn(rows[middle]) < number) low = middle + 1;
    else high = middle;
  }
  return low;
}

/** The position of a number, or -1. A whole catalogue has each number; one that is limited to classes has some. */
export function positionOf(rows, number) {
  const at = rows[number - 1] && numberIn(rows[number - 1]) === number ? number - 1 : firstFrom(rows, number);
  return rows[at] && numberIn(rows[at]) === number ? at : -1;
}

/** The row of a number, or undefined. */
export const rowOf = (rows, number) => rows[positionOf(rows, number)];

export const STATUSES = ["here", "sent", "received", "ended"];

/**
 * Aggregations as a tree: the roots, those within each by its number, all by number, and how many records of each
 * status are in each with all that is in it. A parent's number is below that of what is in it.
 */
export function treeOf(aggregations) {
  const byNumber = new Map(aggregations.map((it) => [it.number, it]));
  const within = new Map();
  const own = (it) => Object.fromEntries(STATUSES.map((status) => [status, it[status]]));
  const totals = new Map(aggregations.map((it) => [it.number, own(it)]));
  for (const it of [...aggregations].reverse()) {
    if (it.parent === null) continue;
    const above = totals.get(it.parent);
    for (const status of STATUSES) above[status] += totals.get(it.number)[status];
  }
  for (const it of aggregations) {
    if (it.parent === null) continue;
    if (!within.has(it.parent)) within.set(it.parent, []);
    within.get(it.parent).push(it);
  }
  return { roots: aggregations.filter((it) => it.parent === null), within, byNumber, totals };
}

/** The aggregations that contain this one, from the root on. */
export function above(tree, aggregation) {
  const found = [];
  for (let it = tree.byNumber.get(aggregation.parent); it; it = tree.byNumber.get(it.parent)) found.unshift(it);
  return found;
}

/** The class of an aggregation: its own, else that of the nearest one that contains it. */
export function classOf(tree, aggregation) {
  return aggregation.class ?? above(tree, aggregation).findLast((it) => it.class !== null)?.class ?? "";
}

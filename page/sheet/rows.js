// The rows of a text of CSV, as spreadsheet programs write it, and the separator that its header shows.
import { Unreadable, stripped } from "./unreadable.js";

export const SEPARATORS = { comma: ",", semicolon: ";", tab: "\t", bar: "|" };

/** A row as the sheet counts it: the first one is 1. @typedef {{ number: number, cells: string[] }} Row */

export const isEmpty = (row) => row.cells.every((cell) => stripped(cell) === "");

/** A column as a sheet names it: A is the first one, which is 0 here. */
export function letters(column) {
  let named = "";
  for (let left = column + 1; left > 0; left = Math.floor((left - 1) / 26)) {
    named = String.fromCharCode(65 + ((left - 1) % 26)) + named;
  }
  return named;
}

/** The end of a quoted field: the place after its last quote; and what is in it. */
function quoted(text, from, number) {
  let value = "";
  for (let at = from; ;) {
    const end = text.indexOf('"', at);
    if (end < 0) throw new Unreadable("quotes", { row: number });
    value += text.slice(at, end);
    if (text[end + 1] !== '"') return [value, end + 1];
    value += '"';
    at = end + 2;
  }
}

/** A reader of one cell of a text: what is in it, and the place after it. */
function cellReader(text, separator) {
  const ends = new RegExp(`[${separator === "|" ? "\\|" : separator}\\r\\n]`, "g");
  const endOf = (from) => {
    ends.lastIndex = from;
    return ends.exec(text)?.index ?? text.length;
  };
  return (from, number) => {
    if (text[from] !== '"') return [text.slice(from, endOf(from)), endOf(from)];
    const [value, end] = quoted(text, from + 1, number);
    if (endOf(end) !== end) throw new Unreadable("quotes", { row: number });
    return [value, end];
  };
}

/** The rows. A line break in quotes begins none, and a line with nothing in it is an empty row, as in the sheet. */
export function* rowsOf(text, separator) {
  const read = cellReader(text, separator);
  let number = 0;
  let at = 0;
  while (at < text.length) {
    number += 1;
    const cells = [];
    // a line with nothing in it has no cell at all
    let more = text[at] !== "\r" && text[at] !== "\n";
    while (more) {
      const [cell, end] = read(at, number);
      cells.push(cell);
      more = text[end] === separator;
      at = more ? end + 1 : end;
    }
    at += text[at] === "\r" && text[at + 1] === "\n" ? 2 : 1;
    yield { number, cells };
  }
}

/** A header that is further down is looked for in so many rows. */
export const NEAR_TOP = 20;

/** How many names of the header are known, how many of any row near the top, and how many cells the header has. */
function likeness(text, separator, known, header) {
  let [names, best, cells] = [0, 0, 0];
  try {
    for (const row of rowsOf(text, separator)) {
      if (row.number > Math.max(header, NEAR_TOP)) break;
      best = Math.max(best, known(row.cells));
      if (row.number === header) [names, cells] = [known(row.cells), row.cells.length];
    }
  } catch (why) {
    if (!(why instanceof Unreadable)) throw why;
  }
  return [names, best, cells];
}

/** Whether the first of these numbers that differs is greater. */
const isMore = (one, other) => {
  const at = one.findIndex((it, place) => it !== other[place]);
  return at >= 0 && one[at] > other[at];
};

/**
 * The separator's name, and all rows. By it the header has the most known names, or else a row near the top, or else
 * the header has the most cells.
 */
export function separated(text, known, header, asked) {
  let name = asked;
  // the line with which a program says the separator to Excel, which shows no row for it
  const said = /^sep=([^\n])(?:\r\n|\r|\n)/.exec(text);
  const rest = said ? text.slice(said[0].length) : text;
  if (said) name ||= Object.keys(SEPARATORS).find((it) => SEPARATORS[it] === said[1]);
  if (stripped(rest) === "") throw new Unreadable("empty");
  if (!name) {
    let best = [-1];
    for (const [it, separator] of Object.entries(SEPARATORS)) {
      const like = likeness(rest, separator, known, header);
      if (isMore(like, best)) [best, name] = [like, it];
    }
  }
  return { separator: name, rows: [...rowsOf(rest, SEPARATORS[name])] };
}

const inQuotes = (cell) => `"${cell.replaceAll('"', '""')}"`;

/** Rows as a text of CSV, with the mark by which Excel knows UTF-8. A program that takes another separator parts no cell. */
export function written(rows, separator) {
  const lines = rows.map((cells) => cells.map(inQuotes).join(separator));
  return `\ufeff${lines.join("\r\n")}\r\n`;
}

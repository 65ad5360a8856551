// A sheet as rows of an import or of acts: what each row will be, and what is wrong with its cells. The command line has
// the same in office-convert, and tests/import/cases/run compares both.
import { turnActs } from "./acts.js";
import { decoded } from "./bytes.js";
import { codeCell, contentOf, inOneLine, noteOf, numberOf, textOf } from "./cells.js";
import { NAMES, columnsOf, knownIn, matched, nameless } from "./columns.js";
import { dayRead, orderOf } from "./days.js";
import { RECORDS, formOf } from "./kinds.js";
import { Things, lookDay } from "./members.js";
import { isEmpty, letters, separated } from "./rows.js";
import { Wrong, stripped } from "./unreadable.js";

/**
 * What somebody may say of a sheet; what is left out, the sheet shows.
 * @typedef {{ encoding?: string, separator?: string, header?: number, days?: string, years?: number,
 *   joinLines?: boolean, columns?: Record<string, string | number | null>, set?: Record<string, string>,
 *   kind?: string, today?: string, day?: string, catalogue?: import("./members.js").Catalogue,
 *   documents?: import("./documents.js").Documents }} Options
 *
 * A row of the sheet: its number there, its cells, the seven of an import (null where one is wrong), what is wrong with
 * which, and what somebody should look at. `at` is the column of that cell, or null where the sheet has none for it.
 * @typedef {{ number: number, cells: string[], values: (string | null)[], wrong: Found[], notes: Found[] }} Turned
 * @typedef {{ where: string, at: number | null, name: string, text: string, kind: string, values: object }} Found
 */

/** A cell without the spaces around it; one that the row has not is empty. */
function cellOf(row, name, columns, joinLines) {
  if (name in columns.values) return columns.values[name];
  const cell = stripped(row.cells[columns.places[name] ?? row.cells.length] ?? "");
  return joinLines && (name === "ref" || name === "title") ? inOneLine(cell) : cell;
}

function whereOf(row, name, { places }) {
  return name in places ? `${letters(places[name])}${row.number}` : String(row.number);
}

/** What each cell of an import is: a function of the cell that gives its value, or throws what is wrong. */
function partsOf(order, years, refs, things, documents) {
  const ref = (cell, row) => {
    const text = textOf(cell);
    if (refs.has(text)) throw new Wrong("twice", { row: refs.get(text) });
    refs.set(text, row.number);
    return text;
  };
  const originated = (cell) => dayRead(cell, order, years);
  const codes = { class: codeCell, schedule: codeCell };
  const aggregation = (cell) =>
    cell && things.catalogue ? String(things.number("aggregation", cell)) : numberOf(cell);
  const content = documents ? (cell) => documents.value(cell) : contentOf;
  return { ref, title: textOf, originated, aggregation, ...codes, content };
}

/** What somebody should look at in a cell that is of its form: its kind and values, or null. */
function lookOf(name, value, things, today) {
  if (name === "originated") return today ? lookDay(value, today, null) : null;
  if (name === "aggregation") return things.look("aggregation", Number(value), RECORDS);
  return name === "class" || name === "schedule" ? things.lookCode(name, value, false) : null;
}

function turnRow(row, columns, parts, { joinLines, today }, things) {
  const turned = { number: row.number, cells: row.cells, values: [], wrong: [], notes: [] };
  for (const name of NAMES) {
    const text = cellOf(row, name, columns, joinLines);
    const place = { where: whereOf(row, name, columns), at: columns.places[name] ?? null, name, text };
    const note = name === "ref" || name === "title" ? noteOf(text) : null;
    let look = note && { kind: note, values: {} };
    try {
      turned.values.push(parts[name](text, row));
      look ??= lookOf(name, turned.values.at(-1), things, today);
    } catch (why) {
      if (!(why instanceof Wrong)) throw why;
      turned.values.push(null);
      turned.wrong.push({ ...place, kind: why.kind, values: why.values });
    }
    if (look) turned.notes.push({ ...place, ...look });
  }
  for (const at of nameless(columns, row.cells.length)) {
    const text = stripped(row.cells[at]);
    const where = `${letters(at)}${row.number}`;
    if (text) turned.wrong.push({ where, at, name: "", text, kind: "nameless", values: {} });
  }
  return turned;
}

/** The rows below the header as records. */
function turnRecords(filled, columns, options) {
  const days = filled.map((row) => [whereOf(row, "originated", columns), cellOf(row, "originated", columns, false)]);
  const order = orderOf(days, options.days, options.years);
  const things = new Things(options.catalogue ?? null);
  const parts = partsOf(order.name, options.years, new Map(), things, options.documents);
  return { order, rows: filled.map((row) => turnRow(row, columns, parts, options, things)) };
}

/** The text, the separator and the rows of a sheet whose rows are of a kind. */
function read(bytes, options) {
  const { text, encoding } = decoded(bytes, options.encoding);
  const number = options.header ?? 1;
  const form = formOf(options.kind ?? RECORDS);
  return { encoding, number, form, ...separated(text, knownIn(form), number, options.separator) };
}

/** The bytes of a sheet as its rows, by what somebody says of it; throws Unreadable where more must be said. */
export function turned(bytes, options = {}) {
  const { encoding, number, form, separator, rows } = read(bytes, options);
  const columns = columnsOf(rows, number, options.columns, options.set, form);
  const below = rows.slice(number);
  const filled = below.filter((row) => !isEmpty(row));
  const isRecords = (options.kind ?? RECORDS) === RECORDS;
  const made = isRecords ? turnRecords(filled, columns, options) : turnActs(filled, columns, options);
  return { encoding, separator, columns, ...made, empty: below.length - filled.length };
}

/**
 * What is found of a sheet that cannot be read whole, so that somebody can say the rest: its header, and which of its
 * columns are known, as `matched` has them.
 */
export function glimpsed(bytes, options = {}) {
  const { encoding, number, form, separator, rows } = read(bytes, options);
  const header = rows[number - 1]?.cells ?? [];
  return { encoding, separator, header, ...matched(header, options.columns, options.set, form) };
}

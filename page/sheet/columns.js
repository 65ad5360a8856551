// Which column of a sheet is which column of an import or of an act, by the names in its header.
import { NEAR_TOP, letters } from "./rows.js";
import { Unreadable, stripped } from "./unreadable.js";

export const NAMES = ["ref", "title", "originated", "aggregation", "class", "schedule", "content"];
export const NEEDED = ["ref", "title", "originated", "aggregation"];
/**
 * Other names that sheets have for them, as `plain` makes them: as in companions/sheets/spreadsheet/columns.py. The
 * labels of the page in both languages are among them.
 */
export const SYNONYMS = {
  ref: [
    "reference", "reference no", "reference number", "ref no", "file no", "file number", "record no",
    "aktenzeichen", "az", "geschäftszeichen", "signatur", "kennzeichen",
  ],
  title: ["name", "subject", "titel", "betreff", "bezeichnung"],
  originated: [
    "date", "day", "document date", "date of document", "originated on",
    "datum", "entstanden", "entstanden am", "entstehungsdatum",
  ],
  aggregation: [
    "aggregation no", "aggregation number", "number of the aggregation", "folder no", "folder number",
    "akte", "akte nr", "akten nr", "aktennummer", "nummer der akte",
  ],
  class: [
    "class code", "code of the class", "classification",
    "klasse", "kennung der klasse", "klassifikation", "aktenplan",
  ],
  schedule: [
    "schedule code", "code of the schedule", "schedule of its own", "disposal schedule", "retention schedule",
    "regel", "kennung der regel", "eigene regel", "aufbewahrungsregel", "frist", "aufbewahrungsfrist",
  ],
  content: ["inhalt"],
};

/** A name without capitals, marks and doubled spaces. */
export const plain = (name) => stripped(name.toLowerCase().replaceAll("ß", "ss").replace(/[\s_.:\-]+/g, " "));

/**
 * The columns that rows of one kind have: those that each sheet needs, and those of which it needs one.
 * @typedef {{ names: string[], needed: string[], either: string[], synonyms: Record<string, string[]> }} Form
 */

/** @type {Form} */
export const RECORD = { names: NAMES, needed: NEEDED, either: [], synonyms: SYNONYMS };

/** The column that a name of a header is for, or none; its own name comes before another column's synonym. */
export function columnNamed(name, { names, synonyms } = RECORD) {
  const word = plain(name);
  return names.find((it) => word === plain(it)) ?? names.find((it) => synonyms[it].includes(word));
}

/** A function of a header: how many of its names are known. */
export const knownIn = (form) => (header) => header.filter((it) => columnNamed(it, form)).length;

/** The columns that are needed and not there; of those of which one is needed, all if none is there. */
export function missingOf({ needed, either }, there) {
  const lacking = either.some((it) => there.includes(it)) ? [] : either;
  return [...lacking, ...needed.filter((it) => !there.includes(it))];
}

/** The place of a column that somebody chose, or names by its header or, where none has that, by its letters. */
function placeOf(name, header) {
  if (typeof name === "number") return name;
  let found = header.map((_, at) => at).filter((at) => plain(header[at]) === plain(name));
  if (!found.length) found = header.map((_, at) => at).filter((at) => letters(at) === name);
  if (found.length !== 1) throw new Unreadable("name", { name });
  return found[0];
}

/**
 * What a header shows: the places of the columns that somebody maps (null: none), then of those whose names are known.
 * Where two columns may be one, neither is taken, and `both` has them.
 * @returns {{ places: Record<string, number>, both: Record<string, [number, number]> }}
 */
export function matched(header, mapped = {}, values = {}, form = RECORD) {
  const places = {};
  const both = {};
  for (const name of form.names) if ((mapped[name] ?? null) !== null) places[name] = placeOf(mapped[name], header);
  header.forEach((cell, at) => {
    const name = columnNamed(cell, form);
    if (!name || name in mapped || name in values || Object.values(places).includes(at)) return;
    if (name in places) both[name] ??= [places[name], at];
    else places[name] = at;
  });
  for (const name of Object.keys(both)) delete places[name];
  return { places, both };
}

/**
 * The columns by the header in row `number`, as `matched` has them; throws where one that is needed is not told.
 * `values` are the same in each row.
 * @returns {{ places: Record<string, number>, values: Record<string, string>, header: string[] }}
 */
export function columnsOf(rows, number, mapped = {}, values = {}, form = RECORD) {
  const header = rows[number - 1]?.cells ?? [];
  const { places, both } = matched(header, mapped, values, form);
  const [unclear] = Object.entries(both);
  if (unclear) {
    const [name, [one, other]] = unclear;
    throw new Unreadable("both", { name, one: letters(one), other: letters(other) });
  }
  const missing = missingOf(form, [...Object.keys(places), ...Object.keys(values)]);
  if (missing.length) throw whyMissing(rows, number, header, { missing, places, form });
  return { places, values, header };
}

function whyMissing(rows, number, header, { missing, places, form }) {
  const known = knownIn(form);
  const least = Math.max(known(header), 1);
  const better = rows.slice(0, NEAR_TOP).find((row) => known(row.cells) > least);
  if (better) return new Unreadable("header", { row: number, better: better.number });
  const either = missing[0] === form.either[0] ? form.either : [];
  return new Unreadable("missing", { row: number, missing, either, places });
}

/** The places of a row with so many cells for which the header has no name. */
export function nameless({ places, header }, width) {
  const used = new Set(Object.values(places));
  const hasName = (at) => at < header.length && stripped(header[at]) !== "";
  return Array.from({ length: width }, (_, at) => at).filter((at) => !used.has(at) && !hasName(at));
}

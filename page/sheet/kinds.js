// The kinds of acts that rows of a sheet may be: the columns of each, the names that sheets have for them, and words.
// companions/sheets/spreadsheet/kinds.py has the same tables, and tests/import/cases/run compares both.
import { RECORD, SYNONYMS, plain } from "./columns.js";

/** The kind of a sheet whose rows are records. */
export const RECORDS = "add-record";

/**
 * The columns of each kind: those that each sheet needs, those of which it needs one, and those that it may lack. A
 * `ref` is that of the record or aggregation that the act is for, but in `add-aggregation`.
 */
export const COLUMNS = {
  plan: ["act", "", "code ref title trigger unit count offset action schedule parent class"],
  "add-schedule": ["code trigger unit count offset action", "", ""],
  "add-class": ["code title schedule", "", ""],
  "add-aggregation": ["ref title", "", "parent class"],
  "set-class-schedule": ["class schedule", "", ""],
  "close-aggregation": ["", "aggregation ref", ""],
  event: ["occurred by", "record ref", ""],
  review: ["by", "record ref", "schedule"],
  confirm: ["action by decision", "record ref", ""],
  receipt: ["digest by", "record ref", ""],
  "hold-on": ["hold", "target record aggregation class ref", ""],
  "hold-off": ["hold", "target record aggregation class ref", ""],
  "place-hold": ["code reason by", "", ""],
  "lift-hold": ["hold", "", ""],
  reclassify: ["class", "target record aggregation ref", ""],
  "set-record-schedule": ["schedule", "record ref", ""],
};

/** Other names of columns, as `plain` makes them: in English, then in German. */
const OTHERS = {
  act: ["kind", "what", "each row is", "art", "handlung", "vorgang"],
  code: [
    "code of the new schedule", "code of the new class", "kennung", "kürzel", "kennung der neuen regel",
    "kennung der neuen klasse",
  ],
  trigger: ["begins", "the period begins when", "beginn", "auslöser", "die frist beginnt, wenn"],
  unit: ["einheit"],
  count: ["length", "length of the period", "period", "anzahl", "dauer", "länge der frist"],
  offset: ["then wait for", "versatz", "dann warten bis zum"],
  action: ["then", "disposition", "massnahme", "aktion", "dann"],
  parent: ["parent ref", "number of the parent", "within", "übergeordnete akte", "nummer der übergeordneten akte"],
  occurred: ["date", "occurred on", "day of the event", "ended on", "datum", "eingetreten am", "tag des ereignisses"],
  by: ["who", "name", "von", "durch", "wer"],
  decision: ["confirm", "yes/no", "yes or no", "entscheidung", "freigeben", "ja/nein", "ja oder nein"],
  digest: ["sha256", "sha 256", "hash", "sha 256 of the receipt", "prüfsumme", "sha 256 der empfangsbestätigung"],
  hold: ["code of the hold", "sperre", "kennung der sperre"],
  target: ["ziel"],
  record: ["record no", "record number", "number of the record", "unterlage", "nummer der unterlage"],
  reason: ["grund"],
};

/** What a column of one kind may be called beside that. */
const NUMBER = { record: ["number", "no", "nummer", "nr"] };
const OF_KIND = {
  "add-schedule": { code: ["schedule", "schedule code", "regel", "kennung der regel"] },
  "add-class": { code: ["class", "class code", "klasse", "kennung der klasse"] },
  "close-aggregation": { aggregation: ["number", "no", "nummer", "nr"] },
  "place-hold": { code: ["code of the hold", "sperre", "kennung der sperre", "hold"] },
  event: NUMBER,
  review: NUMBER,
  confirm: NUMBER,
  receipt: NUMBER,
  "set-record-schedule": NUMBER,
};

const MONTHS = Array.from({ length: 12 }, (_, at) => [`from-month-${at + 1}`, []]);

/** The words of members, and what else means each of them. */
export const WORDS = {
  act: {
    "add-schedule": ["schedule", "rule", "regel"],
    "add-class": ["class", "klasse"],
    "add-aggregation": ["aggregation", "file", "folder", "akte", "ordner"],
  },
  trigger: {
    origin: ["entstehung"],
    added: ["ablage"],
    closed: ["geschlossen"],
    "last-addition": ["letzte ablage"],
    review: ["prüfung"],
    event: ["ereignis"],
  },
  unit: {
    days: ["day", "tag", "tage"],
    weeks: ["week", "woche", "wochen"],
    months: ["month", "monat", "monate"],
    years: ["year", "jahr", "jahre"],
  },
  offset: {
    none: ["nothing", "keiner", "nichts"],
    month: ["monat"],
    quarter: ["quartal"],
    ...Object.fromEntries(MONTHS),
  },
  action: {
    destroy: ["vernichten"],
    transfer: ["abgeben"],
    review: ["prüfen"],
    keep: ["aufbewahren", "dauernd aufbewahren"],
  },
  decision: {
    yes: ["y", "ja", "j", "x"],
    no: ["n", "nein"],
  },
};

export const LONGEST = { days: 182500, weeks: 26000, months: 6000, years: 500 };

/** The members of each kind, in the order of docs/ACTS.md. */
export const MEMBERS = {
  "add-schedule": "code trigger unit count offset action",
  "add-class": "code title schedule",
  "add-aggregation": "ref title parent class",
  "set-class-schedule": "class schedule",
  "close-aggregation": "aggregation",
  event: "record occurred by",
  review: "record schedule by",
  confirm: "record action by",
  receipt: "record digest by",
  "hold-on": "hold target",
  "hold-off": "hold target",
  "place-hold": "code reason by",
  "lift-hold": "hold",
  reclassify: "target class",
  "set-record-schedule": "record schedule",
};

/** Members that may be empty, and are null then. */
const MAYBE = [
  "add-aggregation class", "add-aggregation parent", "reclassify class", "review schedule",
  "set-record-schedule schedule",
];

export const mayBeEmpty = (kind, member) => MAYBE.includes(`${kind} ${member}`);

/**
 * The columns of a kind.
 * @returns {import("./columns.js").Form}
 */
export function formOf(kind) {
  if (kind === RECORDS) return RECORD;
  const [needed, either, more] = COLUMNS[kind].map((it) => it.split(" ").filter(Boolean));
  const names = [...either, ...needed, ...more];
  const others = (name) => [...(OTHERS[name] ?? SYNONYMS[name]), ...(OF_KIND[kind]?.[name] ?? [])];
  return { names, needed, either, synonyms: Object.fromEntries(names.map((name) => [name, others(name)])) };
}

/** The word of a member that a cell means, or undefined. */
export function wordNamed(member, cell) {
  const text = plain(cell);
  return Object.keys(WORDS[member]).find((word) => text === plain(word) || WORDS[member][word].includes(text));
}

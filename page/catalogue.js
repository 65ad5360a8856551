// The catalogue that office-catalogue made, where nginx serves one: its parts are read once each, all of one moment. What was
// done since is laid over them.
import { get } from "./ask.js";
import { DONE } from "./done.js";
import { classOf, indexOf, positionOf, rowOf, treeOf } from "./plain/catalogue.js";
import { Details } from "./plain/details.js";
import { TEXTS, aggregationOrder, isOfDetails, recordOrder } from "./plain/finding.js";
import { jsonOf } from "./plain/outcomes.js";
import { laidOver, touchedIn } from "./plain/since.js";
import { recordsOf } from "./records.js";
import { isLimited } from "./rights.js";
import { deedsSince } from "./since.js";
import { orderOfLines, searchableText } from "./text_work.js";

/** So many records that an act was about since are asked for, since their due days and holds may be others. */
const MOST_TOUCHED = 50;

/** The moment of what was read, or null where nothing was; what `about` says; its parts and what is made of them. */
let moment = null;
let about = null;
let parts = new Map();
let made = new Map();
/** What was done since that moment; the rows of each part with that, as long as it is the same; and records as they are now. */
let deeds = [];
let laid = new Map();
let touched = { deeds: null, records: [] };
/** The last answer that was no part of a catalogue. */
let last = null;

/** A file of the catalogue, or null where there is none. */
async function read(name) {
  const answer = await get(`catalogue/${name}.json`);
  const body = answer.status === 200 ? jsonOf(answer) : undefined;
  if (typeof body?.moment === "string" && Array.isArray(body[name])) return body;
  last = answer;
  return null;
}

/** Takes the catalogue of another moment in place of the one that was read. */
function take(body) {
  if (body?.moment !== moment) {
    parts = new Map();
    made = new Map();
    laid = new Map();
  }
  moment = body?.moment ?? null;
  about = body?.about[0] ?? null;
}

async function lookNow() {
  take(await read("about"));
  deeds = moment === null ? [] : await deedsSince(moment);
  return moment;
}

/** The last look for a catalogue, which may be under way. */
let look = null;

/** Looks which catalogue is there: its moment, or null where there is none. */
export function refresh() {
  look = lookNow();
  return look;
}

/** Whether a catalogue is there, once somebody has looked for one. */
export const isFound = async () => (await (look ?? refresh())) !== null;

/** Whether a catalogue was there when somebody looked last. */
export const isThere = () => moment !== null;
export const aboutIt = () => ({ ...about, moment });
export const doneSince = () => deeds.length;
export const lastAnswer = () => last;

/** Reads a part; where a new catalogue has come meanwhile, what was read of the one before is forgotten. */
async function readPart(name) {
  let body = await read(name);
  if (body && body.moment !== moment) {
    take(await read("about"));
    body = body.moment === moment ? body : await read(name);
  }
  if (!body || body.moment !== moment) throw new Error("no catalogue");
  return body[name];
}

/** Whether this page did something since it asked what was done, and the asking that is under way. */
let isBehind = false;
let asking = null;

/** Asks what was done since, if this page did something. */
async function catchUp() {
  if (isBehind) {
    isBehind = false;
    asking = deedsSince(moment).then((found) => (deeds = found));
  }
  await asking;
}

addEventListener(DONE, () => (isBehind = true));

/** A part with what was done since. A list of the same acts is the same list. */
function over(name, rows) {
  const known = laid.get(name);
  if (known?.rows === rows && known.deeds === deeds) return known.found;
  const found = laidOver(name, rows, deeds, isLimited("catalogue") ? 0 : about.records);
  laid.set(name, { rows, deeds, found });
  return found;
}

/** The rows of a part, as `classes`, with what was done since; null where they could not be had. */
export async function part(name) {
  const rows = await wasMade(name);
  if (rows) await catchUp();
  return rows && over(name, rows);
}

/** A part that lies in no class is not given to a name that is limited to some. */
const isWithheld = (name) => name === "runs" && !(name in about);

const ADDED = { records: "add-record", aggregations: "add-aggregation" };

/** How many rows a part has by now; undefined if this name does not get it. */
export async function countOf(name) {
  if (!(name in about)) return undefined;
  if (!(name in ADDED)) return (await part(name))?.length ?? about[name];
  const numbers = deeds.filter(({ act, answer }) => act.act === ADDED[name] && !answer.same).map(({ answer }) => answer.number);
  return isLimited("catalogue") ? about[name] + numbers.length : Math.max(about[name], ...numbers);
}

/** The rows of a part as they were made. */
async function wasMade(name) {
  if (moment === null || isWithheld(name)) return null;
  if (!parts.has(name)) parts.set(name, readPart(name));
  const asked = parts.get(name);
  try {
    return await asked;
  } catch {
    if (parts.get(name) === asked) parts.delete(name);
    return null;
  }
}

/** Whether what was done since the catalogue was made added or changed the row of this code. */
export async function isNewer(name, code) {
  const [now, then] = [await part(name), await wasMade(name)].map((rows) => rows?.find((row) => row.code === code));
  return now !== then;
}

/** What is made of a part's rows, once for each catalogue. */
async function ofPart(key, name, make) {
  const rows = await part(name);
  if (rows === null) return null;
  if (made.get(key)?.rows !== rows) made.set(key, { rows, what: make(rows) });
  return made.get(key).what;
}

const recordIndex = (rows) => indexOf(rows, ([, ref, title]) => `${ref} ${title}`);
const aggregationIndex = (rows) => indexOf(rows, ({ ref, title }) => `${ref} ${title}`);

/** The records as a search goes through them: each is its number, ref, title, aggregation, and status. */
export const records = () => ofPart("records", "records", recordIndex);
export const aggregations = () => ofPart("aggregations", "aggregations", aggregationIndex);
export const tree = () => ofPart("tree", "aggregations", treeOf);

/** Makes ready what a search for words goes through: a search that comes before this is done waits for it. */
export const makeReady = (index) => index.ready(searchableText);

/** The records that an act was about since, as the office reports each now. */
async function touchedRecords() {
  if (touched.deeds !== deeds) touched = { deeds, records: recordsOf(touchedIn(deeds), MOST_TOUCHED) };
  return (await touched.records) ?? [];
}

/** What the office reports of each record beside that: days, class, schedule, length, due day and hold; null if it is not there. */
export async function details() {
  const coded = await Promise.all(["classes", "schedules", "holds"].map((name) => wasMade(name)));
  const [columns, rows] = await Promise.all([wasMade("details"), part("records")]);
  if (coded.includes(null) || !columns || !rows) return null;
  const known = made.get("details");
  const now = await touchedRecords();
  if (known?.rows === rows && known.now === now) return known.what;
  const what = new Details(columns, ...coded.map((list) => list.map(({ code }) => code)));
  if (now.length || columns[0].length < rows.length) what.grow(rows.length);
  for (const it of now) what.put(positionOf(rows, it.number), it);
  made.set("details", { rows, now, what });
  return what;
}

/** The years in which records originated. */
export const years = async () => (await details())?.years() ?? null;

/** The number of each record, or of each aggregation, by its ref. */
const numbersOf = (rows, of) => new Map(rows.map(of));
const NAMES = {
  records: () => ofPart("records by ref", "records", (rows) => numbersOf(rows, ([number, ref]) => [ref, number])),
  aggregations: () => ofPart("aggregations by ref", "aggregations", (rows) => numbersOf(rows, ({ number, ref }) => [ref, number])),
};

/** The number of the record or aggregation that has this ref; undefined if none has, or nothing is known of them. */
export const numberOf = async (name, ref) => (await NAMES[name]())?.get(ref);

/** The record or aggregation of this number, as its part has it; undefined if there is none. */
export const numbered = async (name, number) => rowOf((await part(name)) ?? [], number);

/** The records in their order by a column, or null for the order of their numbers. */
export async function recordsBy(column) {
  if (!column || column === "number") return null;
  const index = await records();
  const key = `records by ${column}`;
  if (column in TEXTS) return ofPart(key, "records", (rows) => orderOfLines(rows.map(TEXTS[column]).join("\n")));
  if (!isOfDetails(column)) return ofPart(key, "records", () => recordOrder(index, null, column));
  const known = await details();
  if (made.get(key)?.known !== known) made.set(key, { known, what: recordOrder(index, known, column) });
  return made.get(key).what;
}

/** The same of aggregations. */
export async function aggregationsBy(column) {
  if (!column || column === "number") return null;
  const [index, order] = [await aggregations(), await tree()];
  return ofPart(`aggregations by ${column}`, "aggregations", () => aggregationOrder(index, column, (it) => classOf(order, it)));
}

const scheduleOf = async (code) => (await part("schedules"))?.find((it) => it.code === code) ?? null;

/**
 * A schedule by its code, or null where no catalogue has it. No act changes a schedule, so that one of an older
 * catalogue is right; for a code that is not in it a later catalogue is looked for.
 */
export async function schedule(code) {
  if ((await (look ?? refresh())) === null) return null;
  return (await scheduleOf(code)) ?? ((await refresh()) === null ? null : scheduleOf(code));
}

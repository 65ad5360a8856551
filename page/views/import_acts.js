// Rows of a sheet that are acts, in the view Import: which kind they are, what the catalogue has, and how they are sent.
import { part, refresh } from "../catalogue.js";
import { made } from "../page.js";
import { bytesOf } from "../plain/acts.js";
import { today } from "../plain/forms.js";
import { hasBirthday } from "../plain/persons.js";
import { isSettled } from "../plain/sending.js";
import { actOf, inOrder } from "../sheet/acts.js";
import { NAMES, columnNamed, missingOf, plain } from "../sheet/columns.js";
import { COLUMNS, RECORDS, formOf } from "../sheet/kinds.js";
import { catalogueOf } from "../sheet/lookups.js";
import { letters } from "../sheet/rows.js";
import { signedBy } from "../rights.js";
import { all, t } from "../texts.js";
import { send } from "./filing.js";

/** The part of the texts that all of this is in. */
export const PART = "sheetActs";
/** The kinds that a header shows by itself: the others somebody chooses. */
const SHOWN = ["add-schedule", "add-class", "add-aggregation"];
/** The widest number that may still come. */
const WIDEST = 4294967295;

/** The name of a column, as people read it. */
export const columnWord = (name) => t(NAMES.includes(name) ? `import.columns.${name}` : `${PART}.columns.${name}`);

/** The text of what is wrong, or of what is to be looked at: of records or of acts. */
export function foundKey(section, kind) {
  return kind in all().import[section] ? `import.${section}.${kind}` : `${PART}.${section}.${kind}`;
}

/** The choices of what each row is; the first one is what the columns show. */
export function kindOptions() {
  const option = (value, words) => made("option", { value }, words);
  const kinds = [RECORDS, ...Object.keys(COLUMNS)];
  return [option("", t("import.found")), ...kinds.map((kind) => option(kind, t(`${PART}.kinds.${kind}`)))];
}

const columnsIn = (header, form) => header.map((cell) => columnNamed(cell, form)).filter(Boolean);

/** The columns of a due list that came back with a decision in each row. */
const DECIDED = ["record", "action", "decision"];

/** What each row is, by the header: records, unless it has the columns of a plan or of a due list and lacks those of a record. */
export function kindShown(header) {
  if (!missingOf(formOf(RECORDS), columnsIn(header, formOf(RECORDS))).length) return RECORDS;
  // its other names are common ones of other columns, as Art
  if (header.some((cell) => plain(cell) === "act")) return "plan";
  const known = columnsIn(header, formOf("confirm"));
  if (DECIDED.every((name) => known.includes(name))) return "confirm";
  const isWhole = (kind) => !missingOf(formOf(kind), columnsIn(header, formOf(kind))).length;
  const kind = SHOWN.find(isWhole);
  // a sheet of records may lack a day and an aggregation, but it has no parents
  const hasParents = kind === "add-aggregation" && columnsIn(header, formOf(kind)).includes("parent");
  return kind && (kind !== "add-aggregation" || hasParents) ? kind : RECORDS;
}

/**
 * The values that are the same in each row of a kind: where a gate signs, who acts is the one who signed in.
 * @param {Record<string, string>} [others] those that somebody chose
 */
export const sameValues = (kind, others = {}) =>
  signedBy() && formOf(kind).names.includes("by") ? { ...others, by: signedBy() } : others;

/** Whether rows of a kind name records. */
const namesRecords = (kind) => kind !== "plan" && formOf(kind).names.includes("record");

/** What the catalogue has that rows of a kind may name, or null where there is none. */
export async function lookUp(kind) {
  // a later one may have come since the page was opened
  if ((await refresh()) === null) return null;
  const names = ["schedules", "classes", "holds", "aggregations", ...(namesRecords(kind) ? ["records"] : [])];
  const parts = await Promise.all(names.map((name) => part(name)));
  if (parts.includes(null)) return null;
  return catalogueOf({ records: [], ...Object.fromEntries(names.map((name, at) => [name, parts[at]])) });
}

/** Notes at each row whose title seems to have a date of birth that somebody should look at it. */
export function lookForBirthdays(rows, { places }) {
  for (const row of rows) {
    const title = row.values ? row.values[NAMES.indexOf("title")] : row.act?.title;
    const originated = row.values?.[NAMES.indexOf("originated")];
    if (!title || !hasBirthday(title, originated || today())) continue;
    const at = places.title ?? null;
    row.notes.push({ where: at === null ? String(row.number) : `${letters(at)}${row.number}`, at, name: "title", text: title, kind: "birthday", values: {} });
  }
}

/** The item by which a good row is sent, on the day that `dayOf` gives once it is. */
export function actItem(row, dayOf, numbers) {
  const widest = { get: () => WIDEST, has: () => true };
  const bytes = bytesOf(JSON.stringify(actOf(row.act, "2000-01-01", widest)));
  return { bytes, make: async () => actOf(row.act, dayOf(), numbers), fate: null };
}

/**
 * Sends the acts of rows, what others wait for first; `numbers` gets those of the aggregations that are added. The
 * answer that stopped it, or null.
 */
export async function sendActs(rows, numbers, changed) {
  for (const row of rows) row.item.fate = { kind: "left" };
  for (const list of inOrder(rows)) {
    const items = list.map((row) => row.item);
    const answer = await send("import", items, changed);
    for (const { act, item } of list) {
      if (!isSettled(item)) continue;
      if (act.act === "add-aggregation") numbers.set(act.ref, item.fate.number);
    }
    // it was stopped by hand, or by an answer
    if (answer || items.some(({ fate }) => fate.kind === "left")) return answer;
  }
  return null;
}

// Lists of records, due or overdue: which rows are shown, in which order, and what they add up to.
import { daysBefore } from "./days.js";

/** The columns of a list, what it may be filtered by, the column by which the office orders it, and its totals. */
export const DUE = {
  columns: ["record", "ref", "class", "schedule", "action", "due", "held", "confirmed"],
  filters: ["class", "schedule", "action", "held", "confirmed"],
  order: "due",
  totals: ["count", "destroy", "transfer", "review", "held", "confirmed", "shown"],
};
export const OVERDUE = {
  columns: ["record", "ref", "class", "schedule", "action", "due", "deadline", "held"],
  filters: ["class", "schedule", "action", "held"],
  order: "deadline",
  totals: ["count", "destroy", "transfer", "review", "held", "shown"],
};

/** What the filter for holds may ask for beside a hold: no code of a hold has such letters. */
export const ANY_HOLD = "*";
export const NO_HOLD = "_none";

/** The word of a row for a column: a hold's code or none, yes or no, else the member itself. */
export function valueOf(row, name) {
  if (name === "held") return row.held ?? "";
  if (name === "confirmed") return row.confirmed ? "yes" : "no";
  return row[name];
}

/** Whether a filter takes a row. An empty one takes all. */
function takes(row, name, wanted) {
  if (wanted === "") return true;
  if (name === "held" && wanted === ANY_HOLD) return row.held !== null;
  if (name === "held" && wanted === NO_HOLD) return row.held === null;
  return valueOf(row, name) === wanted;
}

/** The rows that each filter takes. */
export function filtered(rows, filter) {
  const wanted = Object.entries(filter).filter(([, value]) => value !== "");
  if (!wanted.length) return rows;
  return rows.filter((row) => wanted.every(([name, value]) => takes(row, name, value)));
}

const compared = (one, other) => (one < other ? -1 : one > other ? 1 : 0);

/** Rows by one column, or as the office gave them; equal ones stay in their order. */
export function sorted(rows, column, down) {
  if (!column) return rows;
  const order = [...rows].sort((one, other) => compared(valueOf(one, column), valueOf(other, column)));
  return down ? order.reverse() : order;
}

/**
 * Rows by groups, in the order of their keys; rows of a group stay in their order.
 * @param {object[]} rows
 * @param {function(object): number | null} keyOf null for what belongs to no group that is known, which comes last
 * @returns {{ key: number | null, rows: object[] }[]}
 */
export function grouped(rows, keyOf) {
  const groups = new Map();
  for (const row of rows) {
    const key = keyOf(row);
    if (!groups.has(key)) groups.set(key, []);
    groups.get(key).push(row);
  }
  const place = (key) => key ?? Infinity;
  return [...groups].sort(([one], [other]) => place(one) - place(other)).map(([key, own]) => ({ key, rows: own }));
}

/** Each value of a filter with how many rows have it, by value. */
export function choices(rows, name) {
  const counts = new Map();
  for (const row of rows) {
    const value = valueOf(row, name);
    const own = counts.get(value);
    if (own) own.count += 1;
    else counts.set(value, { count: 1 });
  }
  return [...counts].map(([value, { count }]) => [value, count]).sort(([one], [other]) => compared(one, other));
}

/** What rows add up to, counted in one pass: a list may have as many of them as the office has records. */
export function totals(rows) {
  const sums = { count: rows.length, destroy: 0, transfer: 0, review: 0, held: 0, confirmed: 0 };
  for (const row of rows) {
    sums[row.action] += 1;
    if (row.held !== null) sums.held += 1;
    if (row.confirmed) sums.confirmed += 1;
  }
  return sums;
}

/**
 * What marked rows are to be: how many of each action, and how many of those are held.
 * @param {object[]} rows
 * @returns {{ action: string, count: number, held: number }[]} of each action that there is
 */
export function actionsOf(rows) {
  const of = (action) => rows.filter((row) => row.action === action);
  const sums = (action) => ({ action, count: of(action).length, held: of(action).filter(({ held }) => held !== null).length });
  return ["destroy", "transfer", "review"].map(sums).filter(({ count }) => count > 0);
}

/** Whether a row may be confirmed: what is to be reviewed is not. */
export const canBeConfirmed = (row) => row.action !== "review";

/** What a confirmation is given for, as the list shows it. */
export const CONFIRMED_FOR = ["class", "schedule", "action", "due", "held"];
/** The same, and whether somebody has confirmed it already: another confirmation would take the place of theirs. */
export const AS_SHOWN = [...CONFIRMED_FOR, "confirmed"];

/**
 * How rows differ from those that are there by now.
 * @param {object[]} rows as they were shown
 * @param {object[]} others all rows of the same list, as they are now
 * @param {string[]} names what is compared
 * @returns {{ row: object, now: object | null, names: string[] }[]} each row that differs, with the one that is there by
 *   now, or null if there is none, and the names of what differs
 */
export function changed(rows, others, names = AS_SHOWN) {
  if (!rows.length) return [];
  const there = new Map(others.map((row) => [row.record, row]));
  const differences = (row, now) => (now ? names.filter((name) => row[name] !== now[name]) : []);
  const compare = (row) => ({ row, now: there.get(row.record) ?? null, names: differences(row, there.get(row.record)) });
  return rows.map(compare).filter(({ now, names }) => now === null || names.length > 0);
}

/** How many rows of the due list of a day are overdue: unconfirmed, and due more than so many days before that day. */
export function overdueAmong(rows, day, count) {
  const before = daysBefore(day, count);
  let found = 0;
  for (const row of rows) if (!row.confirmed && row.due < before) found += 1;
  return found;
}

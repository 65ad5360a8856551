// What falls due in the years to come: the rows of a due list by year or month, action, hold and confirmation.

import { lengthOfMonth, written } from "./days.js";

export const ACTIONS = ["destroy", "transfer", "review"];
export const STATES = ["confirmed", "held", "open"];

/** So many years are shown one by one at most; those before them are one period, and those after them another one. */
const MOST = 30;
const LAST = 2999;

/** What is known of a row: a hold comes first, since what is held is destroyed by nobody, confirmed or not. */
const stateOf = (row) => (row.held !== null ? "held" : row.confirmed ? "confirmed" : "open");

const zeros = () => Object.fromEntries(STATES.map((state) => [state, 0]));
const none = () => Object.fromEntries(ACTIONS.map((action) => [action, zeros()]));

/** Counts of no row: in all, held, confirmed (also what is held), and by action and state. */
const empty = () => ({ total: 0, held: 0, confirmed: 0, by: none() });

function add(counts, row) {
  counts.total += 1;
  if (row.held !== null) counts.held += 1;
  if (row.confirmed) counts.confirmed += 1;
  counts.by[row.action][stateOf(row)] += 1;
}

/** How many rows of an action a period has, whatever their state. */
export const countOf = (counts, action) => STATES.reduce((sum, state) => sum + counts.by[action][state], 0);

const yearOf = (row) => Number(row.due.slice(0, 4));

/** The years that have a row, the first one first. */
export const yearsOf = (rows) => [...new Set(rows.map(yearOf))].sort((one, other) => one - other);

const firstOf = (year) => written({ year, month: 1, day: 1 });
const lastOf = (year) => written({ year, month: 12, day: 31 });

/** The years from a first to a last one, as one period. */
function years(kind, year, first, last) {
  return { kind, year, from: firstOf(first), to: lastOf(last), counts: empty() };
}

/** The years that are shown one by one: all from the first to the last, or those from a little before this one on. */
function shownYears(years, now) {
  const [first, last] = [years[0], years[years.length - 1]];
  if (last - first < MOST) return [first, last];
  const start = Math.max(first, Math.min(now - 3, last - MOST + 1));
  return [start, Math.max(start, ...years.filter((year) => year < start + MOST))];
}

/** The periods of years, each with its days and its counts, as of this year. */
export function byYear(rows, now) {
  const there = yearsOf(rows);
  if (!there.length) return [];
  const [first, last] = shownYears(there, now);
  const one = (year) => years("year", year, year, year);
  const periods = Array.from({ length: last - first + 1 }, (_, at) => one(first + at));
  const before = years("before", first, 1, first - 1);
  const after = years("after", last, last + 1, LAST);
  for (const row of rows) {
    const year = yearOf(row);
    add((year < first ? before : year > last ? after : periods[year - first]).counts, row);
  }
  return [...(before.counts.total ? [before] : []), ...periods, ...(after.counts.total ? [after] : [])];
}

function monthPeriod(year, month) {
  const from = written({ year, month, day: 1 });
  const to = written({ year, month, day: lengthOfMonth(year, month) });
  return { kind: "month", year, month, from, to, counts: empty() };
}

/** The twelve months of a year, each with its days and its counts. */
export function byMonth(rows, year) {
  const periods = Array.from({ length: 12 }, (_, at) => monthPeriod(year, at + 1));
  for (const row of rows) {
    if (yearOf(row) === year) add(periods[Number(row.due.slice(5, 7)) - 1].counts, row);
  }
  return periods;
}

/** The steps of an axis up to so many: whole numbers, at most five of them, each 1, 2 or 5 with zeros. */
export function stepsUpTo(most) {
  const size = 10 ** Math.floor(Math.log10(Math.max(1, most / 5)));
  const step = Math.max(1, [1, 2, 5, 10].map((it) => it * size).find((it) => it * 5 >= most));
  const steps = [];
  for (let at = 0; at < most + step; at += step) steps.push(at);
  return steps;
}

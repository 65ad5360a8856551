// Forecasts: what a run, the end of a hold, a closing or another schedule would do, by what the office and the catalogue report.
import { dueDay } from "./days.js";

export const FATES = ["destroy", "send", "end", "skip"];

/** What a run does with a row of the list of its day that is confirmed: a hold keeps from destruction, not from sending. */
const fateOfDue = (row) => (row.action === "transfer" ? "send" : row.held === null ? "destroy" : "skip");

/** What a run does with a record that an archive has received. */
const fateOfReceived = (record) => (record.held === null ? "end" : "skip");

const zeros = () => Object.fromEntries(FATES.map((fate) => [fate, 0]));

/**
 * What a run would do.
 * @param {object[]} due the due list of its day
 * @param {object[]} received the records that an archive has received, as the office reports them
 * @returns {{ rows: object[], totals: Object<string, number>, classes: [string, Object<string, number>][] }} each record
 *   that it takes, with its fate; how many there are of each fate, in all and by class
 */
export function runForecast(due, received) {
  const ofDue = due.filter((row) => row.confirmed && row.action !== "review").map((row) => ({ ...row, fate: fateOfDue(row) }));
  const ofReceived = received.map((it) => ({ ...it, record: it.number, fate: fateOfReceived(it) }));
  const rows = [...ofDue, ...ofReceived];
  const totals = zeros();
  const classes = new Map();
  for (const row of rows) {
    if (!classes.has(row.class)) classes.set(row.class, zeros());
    totals[row.fate] += 1;
    classes.get(row.class)[row.fate] += 1;
  }
  return { rows, totals, classes: [...classes].sort(([one], [other]) => (one < other ? -1 : 1)) };
}

/**
 * What is under a hold, of what has a due day.
 * @param {object[]} all the due list of the last day
 * @param {string} hold
 * @param {string} day
 * @returns {{ covered: object[], due: object[], confirmed: object[] }} what the office names that hold for; what of it is
 *   due by the day; what of that is confirmed and a run would destroy then
 */
export function liftForecast(all, hold, day) {
  const covered = all.filter((row) => row.held === hold);
  const due = covered.filter((row) => row.due <= day);
  return { covered, due, confirmed: due.filter((row) => row.confirmed && row.action === "destroy") };
}

/** The earliest of days, or null where there is none. */
export const earliest = (days) => days.reduce((least, day) => (least === null || day < least ? day : least), null);

/**
 * The due days that follow a closing: how many records have each.
 * @param {object[]} records the records in the aggregation, as the office reports them
 * @param {Map<string, object>} schedules by their codes
 * @param {string} day of the closing
 * @returns {{ schedule: string, action: string, due: string, count: number }[]}
 */
export function closeForecast(records, schedules, day) {
  const found = new Map();
  for (const { status, schedule } of records) {
    const rule = schedules.get(schedule);
    if (status !== "here" || rule?.trigger !== "closed" || rule.action === "keep") continue;
    const { action } = rule;
    const it = found.get(schedule) ?? { schedule, action, due: dueDay(day, rule), count: 0 };
    found.set(schedule, { ...it, count: it.count + 1 });
  }
  return [...found.values()];
}

/** The day on which the period of a record begins by a trigger: null where it has not begun, undefined where no path reports it. */
function startOf(record, trigger, aggregations) {
  if (trigger === "origin") return record.originated;
  if (trigger === "added" || trigger === "event") return record[trigger];
  return trigger === "closed" ? aggregations.get(record.aggregation)?.closed : undefined;
}

/** The due day of a record under another schedule, as startOf has it. */
function dueBy(record, rule, aggregations) {
  if (rule.action === "keep") return null;
  const start = startOf(record, rule.trigger, aggregations);
  return start ? dueDay(start, rule) : start;
}

/**
 * What another schedule of a class would do with the due days of its records.
 * @param {object[]} rows what is in the due list of the last day of this class with the schedule that the class has now
 * @param {object[]} records the records of these rows, as the office reports them
 * @param {{ trigger: string, action: string }} rule the schedule that the class would have
 * @param {Map<number, object>} aggregations by their numbers
 * @returns {{ counts: Object<string, number>, fallen: object[], moves: [string, string, number][] }} how many due days
 *   move, stay, go or are not known; the rows whose confirmations no longer count; the days before and after
 */
export function ruleForecast(rows, records, rule, aggregations) {
  const byNumber = new Map(records.map((it) => [it.number, it]));
  const counts = { moved: 0, same: 0, none: 0, unknown: 0 };
  const moves = new Map();
  const fallen = [];
  for (const row of rows) {
    const record = byNumber.get(row.record);
    const due = record && dueBy(record, rule, aggregations);
    const kind = due === undefined ? "unknown" : due === null ? "none" : due === row.due ? "same" : "moved";
    counts[kind] += 1;
    if (row.confirmed && kind !== "unknown" && (kind !== "same" || rule.action !== row.action)) fallen.push(row);
    if (kind === "moved") {
      const key = `${row.due} ${due}`;
      moves.set(key, (moves.get(key) ?? 0) + 1);
    }
  }
  return { counts, fallen, moves: [...moves].sort().map(([key, count]) => [...key.split(" "), count]) };
}

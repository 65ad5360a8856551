// What was done since the catalogue was made, laid over its parts. An act that the catalogue has already changes nothing.
import { positionOf } from "./catalogue.js";

/**
 * An act that was done, with its answer.
 * @typedef {{ act: Object<string, any>, answer: Object<string, any> }} Deed
 */

/** Whether an answer says that its act was done. */
export const isDone = (answer) => Boolean(answer) && typeof answer === "object" && !("refused" in answer) && !("error" in answer);

const byCode = (one, other) => (one.code < other.code ? -1 : 1);

/** Rows with one more, unless they have its code. */
const withCode = (rows, row) => (rows.some(({ code }) => code === row.code) ? rows : [...rows, row].sort(byCode));

/** Rows in which the one that `is` finds has other values. */
const changed = (rows, is, values) => rows.map((row) => (is(row) ? { ...row, ...values(row) } : row));

/** Rows with a new one at their end, unless they have its number. */
const withNumber = (rows, number, row) => (positionOf(rows, number) < 0 ? [...rows, row] : rows);

const numberOfTarget = (kind, target) => (String(target).startsWith(`${kind}:`) ? Number(target.slice(kind.length + 1)) : 0);
const ofCode = (code) => (row) => row.code === code;
const ofNumber = (number) => (row) => row.number === number;
const without = (targets, target) => targets.filter((it) => it !== target);

const newAggregation = ({ number }, { ref, title, parent, class: code }) => ({
  number, ref, title, parent: parent ?? null, class: code ?? null, closed: null, here: 0, sent: 0, received: 0, ended: 0,
});

/** How an act changes each part that it changes: by its kind, functions of the rows, the act and the answer. */
const CHANGES = {
  "add-schedule": { schedules: (rows, { act, day, ...rule }) => withCode(rows, rule) },
  "add-class": { classes: (rows, { code, title, schedule }) => withCode(rows, { code, title, schedule }) },
  "set-class-schedule": { classes: (rows, act) => changed(rows, ofCode(act.class), () => ({ schedule: act.schedule })) },
  "add-aggregation": { aggregations: (rows, act, answer) => withNumber(rows, answer.number, newAggregation(answer, act)) },
  "close-aggregation": { aggregations: (rows, act) => changed(rows, ofNumber(act.aggregation), (it) => ({ closed: it.closed ?? act.day })) },
  reclassify: {
    aggregations: (rows, act) => changed(rows, ofNumber(numberOfTarget("aggregation", act.target)), () => ({ class: act.class ?? null })),
  },
  "place-hold": {
    holds: (rows, { code, reason, day, by }) => withCode(rows, { code, reason, placed: day, by, lifted: null, targets: [] }),
  },
  "hold-on": { holds: (rows, act) => changed(rows, ofCode(act.hold), (it) => ({ targets: [...without(it.targets, act.target), act.target] })) },
  "hold-off": { holds: (rows, act) => changed(rows, ofCode(act.hold), (it) => ({ targets: without(it.targets, act.target) })) },
  "lift-hold": { holds: (rows, act) => changed(rows, ofCode(act.hold), (it) => ({ lifted: it.lifted ?? act.day })) },
  "open-run": {
    runs: (rows, { day, by }, { number }) => withNumber(rows, number, { number, day, by, closed: false, ended: null, sent: null, skipped: null }),
  },
  "run-step": { runs: (rows, act, { certificate }) => changed(rows, ofNumber(certificate), () => ({ closed: true })) },
  resume: { runs: (rows, act, { certificate }) => changed(rows, ofNumber(certificate), () => ({ closed: true })) },
};

/** The records that were filed since, as the catalogue has a record, in the order of their numbers. */
function filedIn(deeds) {
  const filed = deeds.filter(({ act, answer }) => act.act === "add-record" && !answer.same);
  return filed.map(({ act, answer }) => [answer.number, act.ref, act.title, act.aggregation, "here"]).sort(([one], [other]) => one - other);
}

/** Records with those that were filed since. The same rows, if there are none. */
function withFiled(rows, deeds) {
  const last = rows.length ? rows.at(-1)[0] : 0;
  const filed = filedIn(deeds).filter(([number]) => number > last);
  return filed.length ? [...rows, ...filed] : rows;
}

/** Aggregations whose counts have the records that were filed since; `last` is the last record that they count. */
function counted(rows, deeds, last) {
  const counts = new Map();
  for (const [number, , , aggregation] of filedIn(deeds)) {
    if (number > last) counts.set(aggregation, (counts.get(aggregation) ?? 0) + 1);
  }
  return counts.size ? changed(rows, ({ number }) => counts.has(number), (it) => ({ here: it.here + counts.get(it.number) })) : rows;
}

/**
 * The rows of a part with what was done since laid over them; the same rows if nothing was.
 * @param {string} name
 * @param {any[]} rows
 * @param {Deed[]} deeds in their order
 * @param {number} last the number of the last record that the catalogue has
 */
export function laidOver(name, rows, deeds, last) {
  if (name === "records") return withFiled(rows, deeds);
  let found = rows;
  for (const { act, answer } of deeds) found = CHANGES[act.act]?.[name]?.(found, act, answer) ?? found;
  return name === "aggregations" ? counted(found, deeds, last) : found;
}

/** The numbers of records that an act of these is about, the newest first: what the catalogue has of them may be otherwise. */
export function touchedIn(deeds) {
  const numbers = deeds.map(({ act, answer }) => {
    if (act.act === "add-record") return answer.same ? 0 : answer.number;
    return act.record ?? numberOfTarget("record", act.target);
  });
  return [...new Set(numbers.filter(Boolean).reverse())];
}

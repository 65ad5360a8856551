// What the catalogue says that waits for somebody: an open run, receipts, events, files without additions, old holds.
import { link, made, paragraph, plural, tableOf } from "../page.js";
import { visible } from "../plain/marks.js";
import { idleFor, oldHolds, sentByRun } from "../plain/todo.js";
import { t } from "../texts.js";
import { recordsOf } from "./catalogue_tables.js";

/** So many rows of a list are shown; the catalogue has all. */
const MOST = 100;

const columns = (...names) => names.map((name) => t(`todo.columns.${name}`));

/** A table of the first rows, and how many more there are. */
function listOf(name, heads, rows, cells) {
  const table = tableOf(t(`todo.names.${name}`), columns(...heads), rows.slice(0, MOST).map(cells), `found list-${name}`);
  const left = rows.length - MOST;
  return left > 0 ? [table, paragraph(plural("todo.more", left), "hint")] : [table];
}

function openRun(runs) {
  const run = runs.find(({ closed }) => !closed);
  const values = run ? { number: run.number, day: run.day, by: visible(run.by) } : {};
  return { name: "run", count: run ? 1 : 0, values, links: [["#run", "run.title"]] };
}

function sent(rows) {
  const runs = sentByRun(rows);
  const cells = ({ run, day, count }) => [link(`#certificate?number=${run}`, run), day, String(count)];
  const records = made("p", {}, link("#catalogue?part=records&status=sent", t("todo.sentRecords")));
  const more = [records, ...listOf("sent", ["run", "sent", "records"], runs, cells)];
  return { name: "sent", count: rows.length, values: { day: runs[0]?.day }, more };
}

const received = (rows) => ({
  name: "received",
  count: rows.length,
  links: [["#run", "run.title"], ["#catalogue?part=records&status=received", "catalogue.title"]],
});

function waiting(rows) {
  const count = rows.reduce((sum, row) => sum + row.count, 0);
  const cells = (row) => [row.class, row.schedule, String(row.count)];
  return { name: "waiting", count, more: listOf("waiting", ["class", "schedule", "records"], rows, cells) };
}

function idle(rows, day, months, tree) {
  const found = idleFor(rows, day, months);
  const cells = ([number, last]) => {
    const it = tree?.byNumber.get(number);
    const close = link(`#plan?close=${number}`, t("todo.close"));
    return [recordsOf(number, number), visible(it?.ref ?? ""), visible(it?.title ?? ""), last ?? t("todo.never"), close];
  };
  const more = listOf("idle", ["number", "ref", "title", "last", "close"], found, cells);
  return { name: "idle", count: found.length, values: { months: plural("catalogue.units.months", months) }, more };
}

function holdsOf(holds, day) {
  const old = oldHolds(holds, day);
  const cells = (it) => [link(`#holds?code=${it.code}`, it.code), visible(it.reason), it.placed, visible(it.by)];
  return { name: "holds", count: old.length, more: listOf("holds", ["code", "reason", "placed", "by"], old, cells) };
}

/**
 * What waits by the catalogue: what comes before the lists of today, and what comes after them. A part that is not there
 * says nothing.
 * @param {{ todo: object[] | null, runs: object[] | null, holds: object[] | null, tree: object | null }} parts
 * @param {string} day
 * @param {number} months
 */
export function catalogueTasks({ todo, runs, holds, tree }, day, months) {
  const [its] = todo ?? [];
  const ofTodo = its ? [sent(its.sent), received(its.received), waiting(its.waiting), idle(its.idle, day, months, tree)] : [];
  return { first: runs ? [openRun(runs)] : [], then: [...ofTodo, ...(holds ? [holdsOf(holds, day)] : [])] };
}

// What is to do: counts of what is due, and what of the catalogue waits for somebody, as of a day.
import { dueDay } from "./days.js";
import { canBeConfirmed } from "./lists.js";

/** The day so many months before. */
const monthsBefore = (day, count) => dueDay(day, { unit: "months", count: -count, offset: "none" });

/**
 * What the due list of a day leaves to do.
 * @param {object[]} rows
 * @returns {{ toConfirm: number, toReview: number, ready: { destroy: number, transfer: number }, heldBack: number }} what
 *   is neither confirmed nor held; what is to be reviewed; what is confirmed and no hold keeps, by action; what is
 *   confirmed and is kept by a hold
 */
export function dueTasks(rows) {
  const tasks = { toConfirm: 0, toReview: 0, ready: { destroy: 0, transfer: 0 }, heldBack: 0 };
  for (const row of rows) {
    const isFree = row.held === null;
    if (!canBeConfirmed(row)) tasks.toReview += 1;
    else if (!row.confirmed) tasks.toConfirm += isFree ? 1 : 0;
    // a hold keeps from destruction, not from sending
    else if (isFree || row.action === "transfer") tasks.ready[row.action] += 1;
    else tasks.heldBack += 1;
  }
  return tasks;
}

/**
 * What was sent and has no receipt, by the run that sent it, the earliest first.
 * @param {[number, number, string][]} sent each record with its run and the day of that
 * @returns {{ run: number, day: string, count: number }[]}
 */
export function sentByRun(sent) {
  const runs = new Map();
  for (const [, run, day] of sent) {
    if (!runs.has(run)) runs.set(run, { run, day, count: 0 });
    runs.get(run).count += 1;
  }
  return [...runs.values()];
}

/**
 * Open aggregations that nothing was added to for so many months.
 * @param {[number, string | null][]} idle each open aggregation with the day of its last addition, or null if it has no record
 * @param {string} day
 * @param {number} months
 */
export function idleFor(idle, day, months) {
  const before = monthsBefore(day, months);
  return idle.filter(([, last]) => last === null || last < before);
}

/** The kinds of acts of which a name needs one to do something about a task. */
const RIGHTS = {
  run: ["resume"],
  overdue: ["confirm", "review"],
  confirm: ["confirm"],
  review: ["review"],
  ready: ["open-run", "resume"],
  sent: ["receipt"],
  received: ["open-run", "resume"],
  waiting: ["event"],
  idle: ["close-aggregation"],
  holds: ["lift-hold"],
};

/**
 * Parts tasks into those of a name and those of others. Who may do nothing at all has them all.
 * @param {{ name: string }[]} tasks
 * @param {function(string): boolean} mayDo whether the name may do acts of a kind
 */
export function ownTasks(tasks, mayDo) {
  const isOwn = ({ name }) => RIGHTS[name].some(mayDo);
  if (!Object.values(RIGHTS).flat().some(mayDo)) return { own: tasks, others: [] };
  return { own: tasks.filter(isOwn), others: tasks.filter((it) => !isOwn(it)) };
}

/** Holds in force that were placed a year ago or earlier. */
export function oldHolds(holds, day) {
  const before = monthsBefore(day, 12);
  return holds.filter((it) => it.lifted === null && it.placed <= before);
}

// The laws behind the rules, as office-library keeps them: the one that a class shows on a day.

/**
 * @typedef {object} Entry
 * @property {string} day the day from which on it is right
 * @property {string} schedule the schedule whose rule it is the law of
 * @property {string} section
 * @property {string} why
 * @property {string} checked who has checked it; empty if nobody has
 */

/**
 * The law of a class as of a day, or why none is shown: there is none, none of that day, or another rule is in effect.
 * @param {{ class: string, entries: Entry[] }[]} laws the entries of each class, the newest first
 * @param {string} code
 * @param {string} schedule the schedule in effect
 * @param {string} day
 * @returns {{ entry?: Entry, lack?: "none" | "later" | "other" }}
 */
export function lawOf(laws, code, schedule, day) {
  const entries = laws.find((row) => row.class === code)?.entries ?? [];
  const entry = entries.find((each) => each.day <= day);
  if (!entry) return { lack: entries.length ? "later" : "none" };
  return entry.schedule === schedule ? { entry } : { entry, lack: "other" };
}

/**
 * The classes of rows, each once with each of its schedules in effect, in their order.
 * @param {{ class: string, schedule: string }[]} rows
 */
export function rulesIn(rows) {
  const keys = [...new Set(rows.map((row) => `${row.class} ${row.schedule}`))].sort();
  return keys.map((key) => ({ class: key.split(" ")[0], schedule: key.split(" ")[1] }));
}

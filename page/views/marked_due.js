// What of marked records is due, by the office's own list of a day: what the bar of the catalogue offers to confirm.
import { getNewest } from "../ask.js";
import { CONFIRMED_FOR, actionsOf } from "../plain/lists.js";
import { jsonOf } from "../plain/outcomes.js";
import { t } from "../texts.js";

/** The list that was read last: its day, and its rows by record; null while none is read. */
let last = null;

/** Has the list read anew the next time. */
export const forget = () => (last = null);

async function read(day) {
  const answer = await getNewest(`due/${day}`);
  const rows = answer.status === 200 ? jsonOf(answer) : undefined;
  return Array.isArray(rows) ? new Map(rows.map((row) => [row.record, row])) : null;
}

/**
 * Items with their rows in the due list of a day.
 * @param {import("../plain/marked_acts.js").Item[]} items
 * @param {string} day
 */
export async function withRows(items, day) {
  if (last?.day !== day) last = { day, rows: read(day) };
  const rows = await last.rows;
  return items.map((item) => ({ ...item, row: rows ? (rows.get(item.number) ?? null) : undefined }));
}

/** What is shown of items that would be confirmed, as a text: if that differs later, so does what is confirmed. */
export const seenOf = (items) => JSON.stringify(items.map(({ number, row }) => [number, ...CONFIRMED_FOR.map((name) => row[name])]));

/** What would become of these items once they are confirmed, in words. */
export const actionWords = (items) =>
  actionsOf(items.map(({ row }) => row)).map(({ action, count }) => t("marked.confirm.action", { action: t(`actions.${action}`), count }));

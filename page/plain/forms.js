// What a field takes: the forms of docs/ACTS.md and docs/LIMITS.md. Each function says whether a text is of its form.
import { lengthOfMonth, MOST_DAYS, written } from "./days.js";

const encoder = new TextEncoder();
const LAST_NUMBER = 4294967295;

/** A day of the calendar, from 0001-01-01 to 2999-12-31. */
export function isDay(text) {
  const found = /^(\d{4})-(\d{2})-(\d{2})$/.exec(text);
  if (!found) return false;
  const [year, month, day] = found.slice(1).map(Number);
  return year >= 1 && year <= 2999 && month >= 1 && month <= 12 && day >= 1 && day <= lengthOfMonth(year, month);
}

export const isCode = (text) => /^[A-Za-z0-9-]{1,16}$/.test(text);

/** The number of a thing. */
export const isNumber = (text) => /^[1-9][0-9]{0,9}$/.test(text) && Number(text) <= LAST_NUMBER;

/** How many days a record has to be confirmed in. */
export const isConfirmDays = (text) => /^[0-9]{1,9}$/.test(text) && Number(text) <= MOST_DAYS;

/** A title, a ref, a reason or a name: 1 to 200 bytes of UTF-8 without control characters. */
export function isText(text) {
  const bytes = encoder.encode(text).length;
  return bytes >= 1 && bytes <= 200 && !/[\u0000-\u001f\u007f-\u009f\p{Surrogate}]/u.test(text);
}

/** What a hold is put on: a class by its code, an aggregation or a record by its number. */
export const isTarget = (kind, text) => (kind === "class" ? isCode(text) : isNumber(text));

/** Today, by the clock of this browser. */
export function today(now = new Date()) {
  return written({ year: now.getFullYear(), month: now.getMonth() + 1, day: now.getDate() });
}

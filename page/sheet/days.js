// Days as sheets write them, and in which order a column has day, month and year.
import { written } from "../plain/days.js";
import { isDay } from "../plain/forms.js";
import { Unreadable, Wrong } from "./unreadable.js";

export const ORDERS = ["dmy", "mdy", "ymd"];
// a time behind a day is passed over
const CLOCK = "[ T]\\d{1,2}:\\d{2}(?::\\d{2}(?:\\.\\d+)?)?(?: ?[AaPp][Mm])?";
const TIME = `(?:${CLOCK})?`;
// unless it is the time of a zone that the cell names: the day depends on the place then
const ZONED = new RegExp(`^\\d{1,4}[./-] ?\\d{1,2}[./-] ?\\d{1,4}\\.?${CLOCK} ?(?:[Zz]|[+-]\\d{2}:?\\d{2})$`);
const YEAR_FIRST = new RegExp(`^(\\d{4})([./-]) ?(\\d{1,2})\\2 ?(\\d{1,2})\\.?${TIME}$`);
const YEAR_LAST = new RegExp(`^(\\d{1,2})([./-]) ?(\\d{1,2})\\2 ?(\\d{4})${TIME}$`);
const SHORT_YEAR = new RegExp(`^(\\d{1,2})([./-]) ?(\\d{1,2})\\2 ?(\\d{1,2})${TIME}$`);
const SERIAL = /^([1-9]\d{4})(?:[.,]\d+)?$/;
const FIRST_SERIAL = Date.UTC(1899, 11, 30);

/** A day as 2020-12-31, or null where the calendar has none. */
function day(year, month, dayOfMonth) {
  const text = written({ year, month, day: dayOfMonth });
  return isDay(text) ? text : null;
}

const longYear = (short, first) => first + ((((short - first) % 100) + 100) % 100);

/**
 * The days that a text may mean, by the order in which it is read. Two digits mean one of the hundred years from
 * `firstYear` on, and nothing where there is none.
 */
export function readings(text, firstYear) {
  const found = {};
  let it = YEAR_FIRST.exec(text);
  if (it) found.ymd = day(Number(it[1]), Number(it[3]), Number(it[4]));
  else if ((it = YEAR_LAST.exec(text))) {
    found.dmy = day(Number(it[4]), Number(it[3]), Number(it[1]));
    found.mdy = day(Number(it[4]), Number(it[1]), Number(it[3]));
  } else if (firstYear && (it = SHORT_YEAR.exec(text))) {
    const [first, second, third] = [it[1], it[3], it[4]].map(Number);
    if (it[4].length === 2) {
      found.dmy = day(longYear(third, firstYear), second, first);
      found.mdy = day(longYear(third, firstYear), first, second);
    }
    if (it[1].length === 2) found.ymd = day(longYear(first, firstYear), second, third);
  }
  return Object.fromEntries(Object.entries(found).filter(([, read]) => read !== null));
}

/**
 * The one order by which all cells are days that are days by any. Cells come with their places. Where no order does it,
 * or several do and one cell means another day by each, somebody must say which. A moment with a time zone has no day
 * here.
 */
export function orderOf(cells, asked, firstYear) {
  const zoned = cells.find(([, text]) => ZONED.test(text));
  if (zoned) throw new Unreadable("zone", { where: zoned[0], text: zoned[1] });
  if (asked) return { name: asked, shown: null };
  let fits = [...ORDERS];
  let shown = null;
  const seen = [];
  for (const [where, text] of cells) {
    const read = readings(text, firstYear);
    if (!Object.keys(read).length || YEAR_FIRST.test(text)) continue;
    const left = fits.filter((order) => order in read);
    if (!left.length) throw new Unreadable("mixed", { where, text, above: shown ?? seen[0].text });
    if (left.length < fits.length) shown = text;
    fits = left;
    seen.push({ where, text, read });
  }
  const doubtful = seen.find(({ read }) => new Set(fits.map((order) => read[order])).size > 1);
  if (doubtful) {
    const { where, text, read } = doubtful;
    const meant = Object.fromEntries(fits.map((order) => [order, read[order]]));
    throw new Unreadable("doubtful", { where, text, read: meant });
  }
  return { name: seen.length ? fits[0] : "ymd", shown: fits.length === 1 ? shown : null };
}

/** The day that a text means in a column of that order. Four digits of a year in front need none. */
export function dayRead(text, order, firstYear) {
  const read = readings(text, firstYear);
  const found = YEAR_FIRST.test(text) ? read.ymd : read[order];
  if (found === undefined) throw whyNoDay(text, order, firstYear, read);
  return found;
}

function whyNoDay(text, order, firstYear, read) {
  if (!text) return new Wrong("dayless");
  if (Object.keys(read).length) return new Wrong("order", { order });
  const isShort = SHORT_YEAR.test(text);
  if (YEAR_FIRST.test(text) || YEAR_LAST.test(text) || (firstYear && isShort)) return new Wrong("calendar");
  if (isShort) return new Wrong("short");
  const serial = SERIAL.exec(text);
  if (!serial) return new Wrong("day");
  return new Wrong("serial", { day: new Date(FIRST_SERIAL + Number(serial[1]) * 86400000).toISOString().slice(0, 10) });
}

// Days of the calendar as numbers, and the due day that a schedule gives: the rules of docs/CALENDAR.md.

/** The longest period in each unit. */
export const LONGEST = { days: 182500, weeks: 26000, months: 6000, years: 500 };
export const UNITS = Object.keys(LONGEST);

/** The most days that a record may have to be confirmed in. */
export const MOST_DAYS = 3650;

const MONTHS = [1, 2, 3, 4, 5, 6, 7, 8, 9, 10, 11, 12];
const QUARTERS = [1, 4, 7, 10];
export const OFFSETS = ["none", "month", "quarter", ...MONTHS.map((month) => `from-month-${month}`)];

const floor = Math.floor;
const isLeap = (year) => (year % 4 === 0 && year % 100 !== 0) || year % 400 === 0;

export function lengthOfMonth(year, month) {
  if (month === 2) return isLeap(year) ? 29 : 28;
  return [4, 6, 9, 11].includes(month) ? 30 : 31;
}

/** The year, month and day of a text as 2024-02-29. */
function read(text) {
  const [year, month, day] = text.split("-").map(Number);
  return { year, month, day };
}

const digits = (number, count) => String(number).padStart(count, "0");

/** A day as 2024-02-29. */
export const written = ({ year, month, day }) => `${digits(year, 4)}-${digits(month, 2)}-${digits(day, 2)}`;

/** How many days a day is after 0000-03-01. Years begin in March here, so that a leap day is the last of its year. */
function numberOf({ year, month, day }) {
  const from = month > 2 ? year : year - 1;
  const leaps = floor(from / 4) - floor(from / 100) + floor(from / 400);
  return 365 * from + leaps + floor((153 * ((month + 9) % 12) + 2) / 5) + day - 1;
}

/** The day of a number: the inverse of numberOf. */
function dayOf(number) {
  const era = floor(number / 146097);
  const within = number - era * 146097;
  const years = floor((within - floor(within / 1460) + floor(within / 36524) - floor(within / 146096)) / 365);
  const days = within - (365 * years + floor(years / 4) - floor(years / 100));
  const months = floor((5 * days + 2) / 153);
  const month = months < 10 ? months + 3 : months - 9;
  return { year: years + era * 400 + (month > 2 ? 0 : 1), month, day: days - floor((153 * months + 2) / 5) + 1 };
}

/** The day so many months later: the same day of the month, or the month's last where it has no such day. */
function monthsLater({ year, month, day }, count) {
  const months = 12 * year + month - 1 + count;
  const to = { year: floor(months / 12), month: (months % 12) + 1 };
  return { ...to, day: Math.min(day, lengthOfMonth(to.year, to.month)) };
}

const daysLater = (day, count) => dayOf(numberOf(day) + count);

/** The day on which a period ends that begins on a day. */
function endOf(day, unit, count) {
  if (unit === "days") return daysLater(day, count);
  if (unit === "weeks") return daysLater(day, 7 * count);
  return monthsLater(day, unit === "years" ? 12 * count : count);
}

/** The months whose first day an offset asks for. */
function monthsOf(offset) {
  if (offset === "month") return MONTHS;
  return offset === "quarter" ? QUARTERS : [Number(offset.slice("from-month-".length))];
}

/** The least day, not before this one, that the offset asks for. */
function offsetFrom(day, offset) {
  if (offset === "none") return day;
  const wanted = monthsOf(offset);
  let found = day.day === 1 ? day : monthsLater({ ...day, day: 1 }, 1);
  while (!wanted.includes(found.month)) found = monthsLater(found, 1);
  return found;
}

/** The due day of a record whose period begins on this day: the end of the period, then the offset. */
export const dueDay = (start, { unit, count, offset }) => written(offsetFrom(endOf(read(start), unit, count), offset));

/** The day so many days before, or the first of the calendar where it has none. */
export function daysBefore(day, count) {
  const found = daysLater(read(day), -count);
  return found.year < 1 ? "0001-01-01" : written(found);
}

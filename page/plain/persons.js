// Dates of birth in titles: a title stays for ever, also once its record is destroyed.

/** A birthday that says so, as *12.3.1961, geb. 12.3.1961 or born 1961-03-12. */
const SAID = /(?:\*|\bgeb(?:\.|oren)?|\bborn\b|\bd\.?o\.?b\b\.?|\bbirth\w*)[\s:,]*(?:am |on |of )?\d{1,4}[./-]\d{1,2}[./-]\d{1,4}/iu;
/** A day of a calendar with its year. */
const DATE = /(?<![\d.])(?:\d{1,2}[./]\s?\d{1,2}[./]\s?(?<last>\d{4})|(?<first>\d{4})-\d{2}-\d{2})(?!\d)/gu;
/** A day so many years before the record is hardly that of a letter. */
const YEARS = 14;

/**
 * Whether a title seems to have a date of birth: it says so, or has a day that is many years before another one.
 * @param {string} title
 * @param {string} day on which the record originated, or today
 */
export function hasBirthday(title, day) {
  if (SAID.test(title)) return true;
  const years = [...title.matchAll(DATE)].map(({ groups }) => Number(groups.last ?? groups.first));
  return years.some((year) => year >= 1900 && year <= Number(day.slice(0, 4)) - YEARS);
}

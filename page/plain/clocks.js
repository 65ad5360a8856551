// Two clocks, this browser's and the server's: which day it is by each, and whether one of them must be wrong.
import { today } from "./forms.js";

const MINUTE = 60000;
const DAY = 1440 * MINUTE;
/** Clocks that differ by less than this count as one: an answer takes its time, and its Date has no fractions of a second. */
const ALIKE = 5 * MINUTE;

/**
 * How many milliseconds the server's clock is ahead of the browser's.
 * @param {string | null} date the Date of an answer
 * @param {number} now what the browser's clock said as it came
 * @returns {number | null} null if the answer has no such line
 */
export function aheadBy(date, now) {
  const told = Date.parse(date ?? "");
  if (Number.isNaN(told)) return null;
  return Math.abs(told - now) < ALIKE ? 0 : told - now;
}

/**
 * The days by both clocks. Both are days of this browser's time zone, so two right clocks never differ, wherever the server
 * stands: moments are compared, and not a day here with a day of UTC.
 * @param {number} ahead how far the server's clock is ahead
 * @param {number} now what the browser's clock says
 * @returns {{ here: string, there: string, first: string, isDoubtful: boolean }} the days by this browser's and by the
 *   server's clock, the earlier of both, and whether the clocks differ by more than a day
 */
export function daysOf(ahead, now) {
  const [here, there] = [today(new Date(now)), today(new Date(now + ahead))];
  return { here, there, first: there < here ? there : here, isDoubtful: Math.abs(ahead) > DAY };
}

// Days as people write them: what a field for a day takes beside 2017-06-30, and shows then in that form.
import { readings } from "../sheet/days.js";
import { isDay } from "./forms.js";

/** With points between them, day and month are in this order wherever people write so. */
const POINTS = /^\d{1,2}\. ?\d{1,2}\. ?\d{4}$/;

/**
 * The days that a text may mean: none, one, or two where day and month may be either way round.
 * @param {string} text
 * @returns {string[]}
 */
export function daysIn(text) {
  if (isDay(text)) return [text];
  const read = readings(text, null);
  if (POINTS.test(text)) return read.dmy ? [read.dmy] : [];
  return [...new Set(Object.values(read))];
}

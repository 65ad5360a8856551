// The server's clock beside this browser's, by the Date of the last answer. No day is trusted by one of them alone.
import { aheadBy, daysOf } from "./plain/clocks.js";

/** How far the server's clock is ahead, in milliseconds, and what is called once an answer said it. */
let ahead = 0;
const listeners = [];

/** Takes the Date of an answer that began to come when this browser's clock said `at`. */
export function hear(date, at) {
  ahead = aheadBy(date, at) ?? ahead;
  for (const listener of listeners) listener();
}

/** Calls a function whenever an answer said what the server's clock says. */
export const onHeard = (listener) => listeners.push(listener);

/** What the server's clock says now, in milliseconds. */
export const serverNow = () => Date.now() + ahead;

/** The days by both clocks, as they are now. */
export const bothDays = () => daysOf(ahead, Date.now());

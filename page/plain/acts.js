// Acts as docs/ACTS.md has them, and how many of them one request takes.

/** The most bytes of a body of POST /acts. */
export const MOST_BYTES = 1048576;

const encoder = new TextEncoder();

export const confirm = (row, day, by) => ({ act: "confirm", day, record: row.record, action: row.action, by });
export const recordEvent = (day, record, occurred, by) => ({ act: "event", day, record, occurred, by });
export const addRecord = (day, { ref, title, originated, aggregation, class: code, schedule, content }) => ({
  act: "add-record", day, ref, title, originated, aggregation: Number(aggregation), class: code || null, schedule: schedule || null, content,
});
export const openRun = (day, by) => ({ act: "open-run", day, by });
export const placeHold = (day, code, reason, by) => ({ act: "place-hold", day, code, reason, by });
export const holdOn = (day, hold, target) => ({ act: "hold-on", day, hold, target });
export const holdOff = (day, hold, target) => ({ act: "hold-off", day, hold, target });
export const liftHold = (day, hold) => ({ act: "lift-hold", day, hold });

export const bytesOf = (text) => encoder.encode(text).length;

/** The body that asks for these acts. */
export const bodyOf = (acts) => JSON.stringify(acts);

/** How many of these acts, from the first on, fit into one body. */
export function fitting(acts, most = MOST_BYTES) {
  // the brackets; then each act with the comma before it, which the first has not
  let bytes = 1;
  for (const [at, act] of acts.entries()) {
    bytes += bytesOf(JSON.stringify(act)) + 1;
    if (bytes > most) return at;
  }
  return acts.length;
}

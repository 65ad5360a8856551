// Which kinds of acts a name may not do, and what it may not read, by what a gate answers (docs/ACCESS.md).

/** The kinds of acts, and `resume` for carrying out a run. */
export const KINDS = [
  "add-schedule", "add-class", "set-class-schedule", "add-aggregation", "close-aggregation", "add-record",
  "set-record-schedule", "reclassify", "place-hold", "hold-on", "hold-off", "lift-hold", "confirm", "review", "open-run",
  "receipt", "event", "resume",
];

/**
 * The kinds for which the name has no right at all. A server without a gate names none, and then none is left out.
 * @param {{ may?: Object<string, unknown> } | undefined} rights
 * @returns {Set<string>}
 */
export function forbidden(rights) {
  const may = rights?.may;
  return new Set(may === undefined ? [] : KINDS.filter((kind) => !(kind in may)));
}

/** What can be read. */
export const READS = ["records", "contents", "lists", "certificates", "catalogue", "history"];

/**
 * What a name may not read at all, in the same way.
 * @param {{ reads?: Object<string, unknown> } | undefined} rights
 * @returns {Set<string>}
 */
export function unread(rights) {
  const reads = rights?.reads;
  return new Set(reads === undefined ? [] : READS.filter((thing) => !(thing in reads)));
}

// What one row of a history says: its time, who, what, why, and what came of it (docs/ACCESS.md).

/**
 * @typedef {object} Row
 * @property {string} at
 * @property {string} name
 * @property {string} by
 * @property {string} kind
 * @property {Object<string, any>} act
 * @property {{ what: string, from?: string | null, to: string | null }} [change]
 * @property {string | null} reason
 * @property {number | null} status
 * @property {boolean} known
 * @property {any} answer
 */

/** Who did it: the text that the office records, and the name that signed in if it is another. */
export const whoOf = ({ by, name }) => (by === name ? name : `${by} · ${name}`);

/** What came of an act: `done`, `same`, `refused`, `unknown`, or `waiting` while it has no answer. */
export function fateOf({ status, known, answer }) {
  if (status === null) return "waiting";
  if (answer && typeof answer === "object" && ("refused" in answer || "error" in answer)) return "refused";
  if (!answer || !known && !("done" in answer || "number" in answer || "certificate" in answer || "outcome" in answer)) return "unknown";
  return answer.same ? "same" : "done";
}

/** What the refusal of an act means, by the texts of the page; its own words if they have none. */
export function meaningOf({ status, answer }, texts) {
  if (answer.refused !== undefined) return texts.refusals[answer.refused]?.meaning ?? String(answer.refused);
  return texts.proxy[`${status} ${answer.error}`]?.meaning ?? String(answer.error);
}

/** The value that an act changed, if the journal has it: undefined if not, null for none of its own. */
export const beforeOf = ({ change }) => change && change.from;

/** A target, as `record:8`, as its kind and its name. */
export function targetOf(text) {
  const at = String(text).indexOf(":");
  return { kind: String(text).slice(0, at), name: String(text).slice(at + 1) };
}

// What was done since the catalogue was made: a gate answers it from its journal; without one the page knows its own acts.
import { get } from "./ask.js";
import { doneSince } from "./done.js";
import { jsonOf } from "./plain/outcomes.js";
import { isGated } from "./rights.js";

/** So many answers are read at most: of what is more the next catalogue has it. */
const MOST = 20;

let known = { moment: null, deeds: [], last: "" };

/** Reads what the gate has since the last time; false if it does not say it. */
async function readOn(it) {
  for (let count = 0; count < MOST; count += 1) {
    // as it is written: the gate takes no percent signs
    const answer = await get(`since?moment=${it.moment}${it.last ? `&after=${it.last}` : ""}`);
    const body = answer.status === 200 ? jsonOf(answer) : undefined;
    if (!Array.isArray(body?.rows)) return false;
    if (body.rows.length) it.deeds = [...it.deeds, ...body.rows];
    it.last = body.last;
    if (!body.more) return true;
  }
  return true;
}

/** What the gate said, with what this page did itself if the gate does not say it; the same list as long as neither grows. */
let joined = { deeds: null, own: 0, list: [] };

function join(own) {
  if (joined.deeds !== known.deeds || joined.own !== own.length) {
    joined = { deeds: known.deeds, own: own.length, list: [...known.deeds, ...own] };
  }
  return joined.list;
}

let reading = Promise.resolve();

/** The acts that were done since a moment, in their order. As long as none is added it is the same list. */
export async function deedsSince(moment) {
  const mine = reading.then(async () => {
    if (known.moment !== moment) known = { moment, deeds: [], last: "" };
    const isRead = isGated() && (await readOn(known));
    return join(isRead ? [] : doneSince(moment));
  });
  reading = mine.catch(() => {});
  return mine;
}

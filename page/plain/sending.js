// Acts that go in several requests, one after another: which of them go together, and what became of each.
import { MOST_BYTES } from "./acts.js";
import { fatesOf, jsonOf } from "./outcomes.js";

/** A body stays so much below the limit. */
const ROOM = 1024;
/** So many acts go in one request at most: what is done is seen, and little is unknown where a connection is lost. */
const MOST_ACTS = 100;

/**
 * An act that is to be sent: how many bytes it has as JSON, how it is made (null or a fate where it cannot be), what it
 * became. One that `isAlone` goes in a request of its own, as soon as it is made: a large file was put into the vault then.
 * @typedef {{ bytes: number, make: () => Promise<object | Fate | null>, fate: Fate | null, isAlone?: boolean }} Item
 * @typedef {{ kind: "added" | "same" | "refused" | "unknown" | "left" | "unread" | "unput", number?: number,
 *   refusal?: number, status?: number }} Fate
 */

/** The items in lists, in their order, each of which fits into one body. */
export function batches(items, most = MOST_BYTES - ROOM, count = MOST_ACTS) {
  const lists = [];
  let bytes = most;
  for (const [at, item] of items.entries()) {
    // with the comma or the bracket before it
    const more = item.bytes + 1;
    if (bytes + more > most || lists.at(-1).length === count || item.isAlone || items[at - 1]?.isAlone) {
      lists.push([]);
      bytes = 1;
    }
    lists.at(-1).push(item);
    bytes += more;
  }
  return lists;
}

/** What an answer to the addition of a record says of it. */
function fateOf(answer) {
  if (answer.refused) return { kind: "refused", refusal: answer.refused };
  return { kind: answer.same ? "same" : "added", number: answer.number };
}

/** Notes what became of the acts of one request; the answer, where it stops those that come after. */
function note(sent, answer) {
  const { answers, end } = fatesOf(answer, sent.length);
  const stopped = jsonOf(answer)?.fault !== undefined;
  sent.forEach(({ item }, at) => {
    if (at < answers.length) item.fate = fateOf(answers[at]);
    else if (end === "undone" || (stopped && at > answers.length)) item.fate = { kind: "left" };
    else item.fate = { kind: "unknown" };
  });
  return end === "answered" ? null : answer;
}

/** The place of the act because of which nothing of this request was done, or -1. */
function unreadPlace(answer, count) {
  const body = jsonOf(answer);
  return answer.status === 400 && body?.error === "act" && body.place < count ? body.place : -1;
}

/** Sends one list. An act that the office does not read keeps no other one back: the others go without it. */
async function sendList(list, send) {
  const sent = [];
  // one after another, since a large file is read whole
  for (const item of list) {
    const act = await item.make();
    if (act === null) item.fate = { kind: "unread" };
    else if (act.kind) item.fate = act;
    else sent.push({ item, act });
  }
  while (sent.length) {
    const answer = await send(sent.map(({ act }) => act));
    const place = unreadPlace(answer, sent.length);
    if (place < 0) return note(sent, answer);
    sent[place].item.fate = { kind: "refused", refusal: jsonOf(answer).refused };
    sent.splice(place, 1);
  }
  return null;
}

/**
 * Sends the items, one request after another, until an answer stops them: that answer, or null. Before each request
 * `goesOn` is told how many items and lists are behind, and says whether the next one is sent.
 */
export async function sendAll(items, send, goesOn) {
  for (const item of items) item.fate = { kind: "left" };
  const lists = batches(items);
  let behind = 0;
  for (const [at, list] of lists.entries()) {
    if (!goesOn({ behind, list: at + 1, lists: lists.length })) return null;
    const stop = await sendList(list, send);
    if (stop) return stop;
    behind += list.length;
  }
  return null;
}

/** Whether nothing is left to be done for an item. */
export const isSettled = (item) => item.fate?.kind === "added" || item.fate?.kind === "same";

/** How many items there are of each fate. */
export function counted(items) {
  const counts = { added: 0, same: 0, refused: 0, unknown: 0, left: 0, unread: 0, unput: 0 };
  for (const { fate } of items) if (fate) counts[fate.kind] += 1;
  return counts;
}

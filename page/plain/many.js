// Many acts in requests of a size that the office takes, one after another. It stops where something was refused or no
// answer came, and goes on from there if it is asked to: the same request is then the same, with the same key.
import { MOST_BYTES, bytesOf } from "./acts.js";
import { fatesOf, jsonOf } from "./outcomes.js";
import { batches } from "./sending.js";

/**
 * What became of an act: `done`; `already`, if a refusal says that it was so before; `refused`, with the refusal;
 * `unknown`; or `left`, if it was not sent, or not done.
 * @typedef {{ kind: "done" | "already" | "refused" | "unknown" | "left", refusal?: number }} Fate
 * @typedef {{ act: object, item: object | null, bytes: number, fate: Fate }} Step
 * @typedef {{ steps: Step[], isSettled: boolean }} Batch
 */

/** A body stays so much below the limit. */
const ROOM = 1024;

/** So many acts go in one request at most: what is done is seen, and little is unknown where a connection is lost. */
export const MOST_ACTS = 100;

/**
 * The requests that these acts make.
 * @param {{ act: object, item: object | null }[]} acts
 * @returns {Batch[]}
 */
export function requestsOf(acts) {
  const steps = acts.map(({ act, item }) => ({ act, item, bytes: bytesOf(JSON.stringify(act)), fate: { kind: "left" } }));
  return batches(steps, MOST_BYTES - ROOM, MOST_ACTS).map((list) => ({ steps: list, isSettled: false }));
}

/** What an answer to one act says of it; `already` are the refusals which say that it was so before. */
function fateOf({ refused }, already) {
  if (!refused) return { kind: "done" };
  return { kind: already.includes(refused) ? "already" : "refused", refusal: refused };
}

/** Notes what became of the acts of one request: whether the next one may go. */
function note(batch, sent, answer, already) {
  const { answers, end } = fatesOf(answer, sent.length);
  const isStopped = jsonOf(answer)?.fault !== undefined;
  sent.forEach((step, at) => {
    if (at < answers.length) step.fate = fateOf(answers[at], already);
    else if (end === "undone" || (isStopped && at > answers.length)) step.fate = { kind: "left" };
    else step.fate = { kind: "unknown" };
  });
  batch.isSettled = batch.steps.every(({ fate }) => !["unknown", "left"].includes(fate.kind));
  return end === "answered" && batch.steps.every(({ fate }) => fate.kind !== "refused");
}

/** The place of the act because of which nothing of a request was done, or -1. */
function unreadPlace(answer, count) {
  const body = jsonOf(answer);
  return answer.status === 400 && body?.error === "act" && body.place < count ? body.place : -1;
}

/** The acts of a request that are sent: all, the first time; once some have an answer, those that have none. */
const wanted = ({ steps }) => steps.filter(({ fate }) => fate.kind === "unknown" || fate.kind === "left");

/** Sends one request; an act that cannot be read is refused, and the others go without it. The answer, and whether all is well. */
async function sendOne(batch, send, already) {
  const sent = wanted(batch);
  let isWell = true;
  while (sent.length) {
    const answer = await send(sent.map(({ act }) => act));
    const place = unreadPlace(answer, sent.length);
    if (place < 0) return { answer, isWell: note(batch, sent, answer, already) && isWell };
    sent[place].fate = { kind: "refused", refusal: jsonOf(answer).refused };
    sent.splice(place, 1);
    isWell = false;
  }
  batch.isSettled = true;
  return { answer: null, isWell };
}

/**
 * Sends the requests that are not settled, one after another, until one is not well: its answer then, else null. Before
 * each `goesOn` is told how many acts have an answer, and says whether the next request is sent.
 * @param {Batch[]} requests
 * @param {function(object[]): Promise<object>} send
 * @param {number[]} already the refusals which say that what was asked for is so already
 * @param {function({ behind: number, request: number }): boolean} goesOn
 */
export async function sendRequests(requests, send, already, goesOn) {
  for (const [at, batch] of requests.entries()) {
    if (batch.isSettled) continue;
    const behind = stepsOf(requests).filter(({ fate }) => fate.kind !== "left").length;
    if (!goesOn({ behind, request: at + 1 })) return null;
    const { answer, isWell } = await sendOne(batch, send, already);
    if (!isWell) return answer;
  }
  return null;
}

export const stepsOf = (requests) => requests.flatMap(({ steps }) => steps);

/** How many acts there are of each fate. */
export function countsOf(requests) {
  const counts = { done: 0, already: 0, refused: 0, unknown: 0, left: 0 };
  for (const { fate } of stepsOf(requests)) counts[fate.kind] += 1;
  return counts;
}

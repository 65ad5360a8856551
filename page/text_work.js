// The texts of many rows, folded and ordered: of a large catalogue in a worker, else here.
import { searchable } from "./plain/catalogue.js";
import { lineOrder } from "./plain/finding.js";

/** So many letters take the page so little time that a worker would begin later. */
const FEW = 1000000;
const HERE = { search: searchable, order: lineOrder };

let worker = null;
let isBroken = false;
/** What is asked of the worker and not answered: what is called with an answer, and the work itself, by their numbers. */
const asked = new Map();
let last = 0;

/** Does all that is asked in the page: there is no worker. */
function doHere() {
  isBroken = true;
  for (const { work, lines, done } of asked.values()) done(HERE[work](lines));
  asked.clear();
}

function answered({ data: { id, result } }) {
  asked.get(id)?.done(result);
  asked.delete(id);
}

function started() {
  worker = new Worker(new URL("text_worker.js", import.meta.url), { type: "module" });
  worker.onmessage = answered;
  worker.onerror = doHere;
  return worker;
}

/** Has a work done with lines of text, a row each. */
async function ask(work, lines) {
  if (lines.length <= FEW || isBroken) return HERE[work](lines);
  last += 1;
  const id = last;
  return new Promise((done) => {
    asked.set(id, { work, lines, done });
    (worker ?? started()).postMessage({ id, work, lines });
  });
}

/**
 * Lines as they are searched.
 * @param {string} lines
 * @returns {Promise<{ text: string, starts: Uint32Array }>}
 */
export const searchableText = (lines) => ask("search", lines);

/**
 * The positions of all lines in their order.
 * @param {string} lines
 * @returns {Promise<Uint32Array>}
 */
export const orderOfLines = (lines) => ask("order", lines);

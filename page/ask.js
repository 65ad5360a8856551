// Requests to the paths of the office, which are in the folder above this page. Each is sent once, and no answer is kept.
import { hear } from "./clock.js";
import { noteDone } from "./done.js";
import { keyFor, note } from "./plain/keys.js";
import { isOfAnother, linesFor, noteSeen } from "./plain/seen.js";

/** The address of a path, without the name and password that the page's own address may carry. */
export function placeOf(path, page = location.href) {
  const place = new URL(`../${path}`, page);
  place.username = "";
  place.password = "";
  return place.href;
}

const NO_ANSWER = { status: 0, type: "", bytes: new Uint8Array(), text: "" };

/** An answer: its status (0 where there came none, or not all of it), media type, bytes and text. */
async function ask(path, method, body, more = {}) {
  const request = {
    method,
    body,
    headers: body === undefined ? more : { "Content-Type": "application/json", ...more },
    mode: "same-origin",
    cache: "no-store",
    redirect: "error",
  };
  let reply, bytes, at;
  try {
    reply = await fetch(placeOf(path), request);
    at = Date.now();
    bytes = new Uint8Array(await reply.arrayBuffer());
  } catch {
    return NO_ANSWER;
  }
  hear(reply.headers.get("Date"), at);
  noteSeen(placeOf(""), reply.status, reply.headers.get("Office-Position"));
  return { status: reply.status, type: reply.headers.get("Content-Type") ?? "", bytes, text: new TextDecoder().decode(bytes) };
}

/** A reading, at least of the state that the page has seen: an office on several machines then answers no older one. */
async function read(path, more = {}) {
  const answer = await ask(path, "GET", undefined, { ...linesFor(placeOf("")), ...more });
  return isOfAnother(placeOf(""), answer.status) ? ask(path, "GET", undefined, more) : answer;
}

export const get = (path) => read(path);

/** Asks for what an act is about to be for: a member of an office on several machines then answers the newest state or none. */
export const getNewest = (path) => read(path, { "Office-Read": "newest" });

/**
 * Has the browser forget name and password: it asks by a name that is nobody's, and the server refuses that and asks anew. A
 * `fetch` takes no name.
 */
export function forgetName() {
  return new Promise((done) => {
    const request = new XMLHttpRequest();
    request.open("GET", placeOf("sign-out"), true, "nobody", "nobody");
    request.addEventListener("loadend", done);
    request.send();
  });
}

/** Asks for nothing but the answer's Date, which is heard (clock.js). */
export const askTime = () => ask("web/icon.svg", "HEAD");

/** A reason as a line of a head: in percent signs, and with plain spaces, since a gate takes no others. */
const reasonLine = (reason) => (reason ? { "Office-Reason": encodeURIComponent(reason.trim().replace(/\p{Z}+/gu, " ")) } : {});

/**
 * Sends a request that acts, with a key of its own: the same key again if the same is sent after an answer was lost.
 * @param {string} path
 * @param {string} [body]
 * @param {{ seen?: string, reason?: string }} [more] what was shown of what it acts on: if that is another thing by now,
 *   so is the request; and why somebody does this, for the journal of a gate
 */
export async function post(path, body, { seen = "", reason = "" } = {}) {
  const sent = JSON.stringify([path, body ?? "", seen]);
  const key = keyFor(sent);
  const answer = await ask(path, "POST", body, { "Idempotency-Key": key, ...reasonLine(reason) });
  note(sent, key, answer.status);
  noteDone(path, body, answer);
  return answer;
}

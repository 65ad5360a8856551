// The vault of the office: whether there is one, files that go into it with progress, and files that come out of it.
import { get, placeOf } from "./ask.js";
import { jsonOf } from "./plain/outcomes.js";

/** So many bytes of an answer are put together to one part, which the browser may move to its disk. */
const PART = 8 << 20;

/**
 * What the vault takes: the most bytes of a file, and how many fit now.
 * @returns {Promise<{ state: "there" | "none" | "silent", most: number, room: number }>} `none` where the office has no
 *   vault, `silent` where it does not say
 */
export async function limits() {
  const answer = await get("vault/limits");
  const said = answer.status === 200 ? jsonOf(answer) : null;
  if (said && Number.isFinite(said.most) && Number.isFinite(said.room)) return { state: "there", most: said.most, room: said.room };
  return { state: answer.status === 404 ? "none" : "silent", most: 0, room: 0 };
}

/**
 * The SHA-256 of a file, computed beside the page.
 * @param {Blob} file
 * @param {(done: number) => void} told hears how many bytes are behind
 * @param {AbortSignal} [stop]
 * @returns {Promise<string | null>} null where the file cannot be read, or it was stopped
 */
export function digestOfFile(file, told, stop) {
  return new Promise((done) => {
    const worker = new Worker(new URL("digest_worker.js", import.meta.url), { type: "module" });
    const end = (digest) => {
      worker.terminate();
      done(digest);
    };
    stop?.addEventListener("abort", () => end(null));
    worker.onerror = () => end(null);
    worker.onmessage = ({ data }) => ("digest" in data ? end(data.digest) : told(data.done));
    worker.postMessage({ file });
  });
}

/**
 * Puts a file into the vault. The browser reads it from the disk as it goes; XMLHttpRequest, since fetch reports no
 * progress of what is sent. To put the same file again does no harm.
 * @param {Blob} file
 * @param {string} digest
 * @param {(done: number) => void} told
 * @param {AbortSignal} stop
 * @returns {Promise<{ status: number, text: string }>} status 0 where no answer came
 */
export function putFile(file, digest, told, stop) {
  return new Promise((done) => {
    const request = new XMLHttpRequest();
    request.open("PUT", placeOf(`vault/${digest}`));
    request.upload.onprogress = ({ loaded }) => told(loaded);
    request.onloadend = () => done({ status: request.status, text: request.status ? request.responseText : "" });
    const end = () => request.abort();
    stop.addEventListener("abort", end);
    if (stop.aborted) end();
    else request.send(file);
  });
}

/**
 * The files that a record names, by its content.
 * @param {number} record
 * @returns {Promise<{ files: { file: number, length: number, place: string, sha256: string, there: boolean }[] } |
 *   { answer: object }>} or the answer, where it is no list of files
 */
export async function filesOf(record) {
  const answer = await get(`records/${record}/files`);
  const files = answer.status === 200 ? jsonOf(answer) : null;
  return Array.isArray(files) ? { files } : { answer };
}

/** The address of a file of a record, from which the browser may save it by itself. */
export const addressOf = (record, number) => placeOf(`records/${record}/files/${number}`);

/**
 * The bytes of a file of a record, which the browser keeps on its disk where there are many.
 * @param {number} record
 * @param {number} number
 * @param {(done: number) => void} told
 * @param {AbortSignal} stop
 * @returns {Promise<{ status: number, text: string, blob: Blob | null }>} without a blob where not all of it came
 */
export async function fetchFile(record, number, told, stop) {
  const none = { status: 0, text: "", blob: null };
  try {
    const answer = await fetch(addressOf(record, number), { mode: "same-origin", cache: "no-store", redirect: "error", signal: stop });
    if (answer.status !== 200) return { ...none, status: answer.status, text: await answer.text() };
    return { ...none, status: 200, blob: await blobOf(answer.body.getReader(), told) };
  } catch {
    return none;
  }
}

async function blobOf(reader, told) {
  const parts = [];
  let [held, size, behind] = [[], 0, 0];
  for (;;) {
    const { done, value } = await reader.read();
    if (value) {
      held.push(value);
      size += value.length;
      behind += value.length;
      told(behind);
    }
    if (done || size >= PART) {
      parts.push(new Blob(held));
      [held, size] = [[], 0];
    }
    if (done) return new Blob(parts);
  }
}

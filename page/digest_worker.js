// Computes the SHA-256 of a file beside the page, so that the page stays awake: { file } comes in; { done } and at last
// { digest } go out. A file of usual size goes to WebCrypto, which is faster and wants all bytes at once.
import { hex } from "./plain/certificates.js";
import { Sha256 } from "./plain/sha256.js";

const AT_ONCE = 64 << 20;
const PART = 4 << 20;

const bytesOf = async (part) => new Uint8Array(await part.arrayBuffer());

async function digestOf(file) {
  if (file.size <= AT_ONCE && globalThis.crypto?.subtle) {
    return hex(new Uint8Array(await crypto.subtle.digest("SHA-256", await bytesOf(file))));
  }
  const digest = new Sha256();
  for (let at = 0; at < file.size; at += PART) {
    digest.add(await bytesOf(file.slice(at, at + PART)));
    postMessage({ done: Math.min(at + PART, file.size) });
  }
  return digest.end();
}

onmessage = async ({ data: { file } }) => {
  let digest = null;
  try {
    digest = await digestOf(file);
  } catch {
    // the file was moved, changed or removed
  }
  postMessage({ digest });
};

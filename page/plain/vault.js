// The files of a record in the vault: the text that names them, which is the record's content (docs/VAULT.md), and words.

/** The most bytes of a name of a file, and the fewest and the most of a text that names files. */
const MOST_PLACE = 1024;
export const LEAST_BYTES = 64;
const MOST_BYTES = 262144;
const GROUP = /SHA256 ([0-9a-f]{64})\nLENGTH (0|[1-9][0-9]{0,17})\nPLACE ([^\u0000-\u001f\u007f-\u009f]+)\n/y;

const encoder = new TextEncoder();

/** The text that names one file: its SHA-256, its length, and its name or, without a vault, where it is kept. */
export const manifestOf = (digest, size, place) => `SHA256 ${digest}\nLENGTH ${size}\nPLACE ${place}\n`;

/**
 * The files that a text names, in their order; null where it names none. The vault reads it by the same form.
 * @param {string} text
 * @returns {{ digest: string, size: number, place: string }[] | null}
 */
export function filesIn(text) {
  const files = [];
  if (encoder.encode(text).length > MOST_BYTES) return null;
  GROUP.lastIndex = 0;
  while (GROUP.lastIndex < text.length) {
    const found = GROUP.exec(text);
    if (!found || encoder.encode(found[3]).length > MOST_PLACE) return null;
    files.push({ digest: found[1], size: Number(found[2]), place: found[3] });
  }
  return files.length ? files : null;
}

/** The name under which a file goes into the vault: without control characters, and not too long. */
export function placeOfFile(name) {
  const plain = name.replace(/[\u0000-\u001f\u007f-\u009f]/g, "-") || "-";
  let letters = Array.from(plain);
  // what is cut is the beginning: the last part is the name of the download, with its extension
  while (encoder.encode(letters.join("")).length > MOST_PLACE) letters = letters.slice(1);
  return letters.join("");
}

/** What no name of a file may have, here or on another system, and what nobody sees. */
const FORBIDDEN = /[\u0000-\u001f\u007f-\u009f/\\:*?"<>|]+|[\p{Default_Ignorable_Code_Point}\p{Bidi_Control}\p{Zl}\p{Zp}]+/gu;

/** The name under which a file is saved: the last part of its place. */
export const nameOf = (place) => place.split(/[/\\]/).pop().replace(FORBIDDEN, "-").replace(/^[.\s]+|[.\s]+$/g, "") || "file";

const REASONS = {
  0: "lost", 400: "lost", 401: "name", 403: "name", 404: "none", 413: "size", 422: "digest", 429: "busy", 503: "busy", 507: "full",
};

/** Why a file did not get into the vault, by the status of the answer to its PUT (0: none came): the name of a text. */
export const whyNot = (status) => REASONS[status] ?? "failed";

// What a content is, by its first bytes, and the name that it is saved under. The office knows no file types.

/**
 * @typedef {object} Kind
 * @property {string} extension that of its files; empty where the bytes do not say it
 * @property {string} type its media type
 * @property {"pdf" | "image" | "text" | null} look how it can be looked at, or null
 */

const latin = (bytes, from, to) => String.fromCharCode(...bytes.subarray(from, to));

/** Kinds by what their files begin with. */
const BEGINNINGS = [
  { begins: "%PDF-", extension: "pdf", type: "application/pdf", look: "pdf" },
  { begins: "\x89PNG\r\n\x1a\n", extension: "png", type: "image/png", look: "image" },
  { begins: "\xff\xd8\xff", extension: "jpg", type: "image/jpeg", look: "image" },
  { begins: "GIF8", extension: "gif", type: "image/gif", look: null },
  { begins: "II*\0", extension: "tif", type: "image/tiff", look: null },
  { begins: "MM\0*", extension: "tif", type: "image/tiff", look: null },
  { begins: "{\\rtf", extension: "rtf", type: "application/rtf", look: null },
  { begins: "\xd0\xcf\x11\xe0", extension: "", type: "application/octet-stream", look: null },
];

/** The files of offices, which are archives, by what their first part is. */
const OPEN_DOCUMENT = { text: "odt", spreadsheet: "ods", presentation: "odp", graphics: "odg" };

function archiveOf(bytes) {
  const head = latin(bytes, 30, 110);
  const open = /^mimetypeapplication\/vnd\.oasis\.opendocument\.([a-z]+)/.exec(head)?.[1];
  return { extension: OPEN_DOCUMENT[open] ?? "", type: "application/octet-stream", look: null };
}

const CONTROLS = /[\u0000-\u0008\u000e-\u001a\u001c-\u001f\u007f]/;

/** The text of these bytes, or null where they are none in UTF-8. */
export function textOf(bytes) {
  try {
    const text = new TextDecoder("utf-8", { fatal: true }).decode(bytes);
    return CONTROLS.test(text) ? null : text;
  } catch {
    return null;
  }
}

/**
 * What a content is, by its first bytes; a text is one in all of its bytes.
 * @param {Uint8Array} bytes
 * @returns {Kind}
 */
export function kindOf(bytes) {
  const head = latin(bytes, 0, 16);
  const found = BEGINNINGS.find(({ begins }) => head.startsWith(begins));
  if (found) return found;
  if (head.startsWith("PK\x03\x04")) return archiveOf(bytes);
  if (textOf(bytes) !== null) return { extension: "txt", type: "text/plain", look: "text" };
  return { extension: "", type: "application/octet-stream", look: null };
}

/** Extensions of files that no browser shows in the page: what these are is known before they are read. */
const UNSHOWN = new Set(
  ("7z aac avi bmp doc docx dwg dxf eml exe flac gif gz heic iso m4a mdb mkv mov mp3 mp4 mpg msg odg odp ods odt ogg "
    + "ppt pptx psd pst rar rtf tar tif tiff wav webm wmv xls xlsx zip").split(" "),
);

/** Whether a file may be one that the page shows, by its name or its ref. */
export const mayBeShown = (name) => !UNSHOWN.has(extensionOf(name));

/** So many letters a name has at most, so that every system of files takes it. */
const LONGEST = 120;
/** What no name of a file may have, here or on another system, and what nobody sees. */
const FORBIDDEN = /[\u0000-\u001f\u007f-\u009f/\\:*?"<>|]+|[\p{Default_Ignorable_Code_Point}\p{Bidi_Control}\p{Zl}\p{Zp}]+/gu;

/** The extension that a ref has, as that of a file that was filed: of letters and digits, one letter among them. */
const extensionOf = (ref) => /\.((?=[0-9]*[a-z])[a-z0-9]{1,5})$/i.exec(ref)?.[1].toLowerCase() ?? "";
/** Extensions of one kind of file. */
const SAME = { jpeg: "jpg", tiff: "tif" };

/** The extension of a content: what its bytes say; where these leave it open, or say no more than text, that of its ref. */
function extensionFor(ref, kind) {
  const own = extensionOf(ref);
  if (!kind.extension || (kind.look === "text" && own)) return own || kind.extension || "bin";
  return (SAME[own] ?? own) === kind.extension ? own : kind.extension;
}

/**
 * The name under which a content is saved: its ref, its title where the ref has not got it already, and an extension.
 * @param {{ ref: string, title: string }} record
 * @param {Kind} kind
 */
export function fileName({ ref, title }, kind) {
  const own = extensionOf(ref);
  const base = own ? ref.slice(0, -own.length - 1) : ref;
  const both = base.toLowerCase().includes(title.toLowerCase()) ? base : `${base} ${title}`;
  const safe = both.replace(FORBIDDEN, "-").replace(/\s+/g, " ").trim();
  // neither hidden nor a folder, and not cut within a character
  const name = Array.from(safe).slice(0, LONGEST).join("").replace(/^[.\s]+|[.\s]+$/g, "");
  return `${name || "content"}.${extensionFor(ref, kind)}`;
}

// The text of a CSV file, by its encoding.
import { Unreadable } from "./unreadable.js";

/** The encodings that somebody may choose, and what a browser calls them. */
export const ENCODINGS = {
  "utf-8": "utf-8",
  "windows-1252": "windows-1252",
  "utf-16-le": "utf-16le",
  "mac-roman": "macintosh",
};

const MARKS = [
  [[0xef, 0xbb, 0xbf], "utf-8", "utf-8-mark"],
  [[0xff, 0xfe], "utf-16le", "utf-16"],
  [[0xfe, 0xff], "utf-16be", "utf-16"],
];
const WORKBOOKS = [[0x50, 0x4b, 0x03, 0x04], [0xd0, 0xcf, 0x11, 0xe0]];
// The characters of Windows-1252 from byte 80 to 9F, a space for the five bytes that are none. A decoder of the browser
// makes control characters of those five, and one of node of all.
const MIDDLE = "€ ‚ƒ„…†‡ˆ‰Š‹Œ Ž  ‘’“”•–—˜™š›œ žŸ";

const begins = (bytes, mark) => mark.every((byte, at) => bytes[at] === byte);

/** In which line a byte is. */
const lineOf = (bytes, at) => bytes.subarray(0, at).reduce((line, byte) => line + (byte === 10), 1);

const isMiddle = (byte) => byte >= 0x80 && byte <= 0x9f;

/** The text of bytes in Windows-1252. */
function inWindows(bytes) {
  const wrong = bytes.findIndex((byte) => isMiddle(byte) && MIDDLE[byte - 0x80] === " ");
  if (wrong >= 0) throw new Unreadable("encoding", { line: lineOf(bytes, wrong), encoding: "windows-1252" });
  const text = new TextDecoder("latin1").decode(bytes.map((byte) => (isMiddle(byte) ? 0x20 : byte)));
  if (!bytes.some(isMiddle)) return text;
  return text.replace(/ /g, (space, at) => (isMiddle(bytes[at]) ? MIDDLE[bytes[at] - 0x80] : space));
}

function inEncoding(bytes, label, encoding) {
  if (label === "windows-1252") return inWindows(bytes);
  try {
    return new TextDecoder(label, { fatal: true, ignoreBOM: false }).decode(bytes).replace(/^\ufeff/, "");
  } catch {
    throw new Unreadable("encoding", { line: "-", encoding });
  }
}

const isUtf8 = (bytes) => {
  try {
    return new TextDecoder("utf-8", { fatal: true }).decode(bytes) !== null;
  } catch {
    return false;
  }
};

/** Whether there is a letter beyond ASCII as UTF-8 writes it. */
const hasUtf8Letter = (bytes) => bytes.some((byte, at) => byte === 0xc3 && (bytes[at + 1] & 0xc0) === 0x80);

/** The text of a file, and its encoding: the one that is asked for, else the one that the bytes show. */
export function decoded(bytes, asked) {
  if (WORKBOOKS.some((mark) => begins(bytes, mark))) throw new Unreadable("workbook");
  if (asked) return { text: inEncoding(bytes, ENCODINGS[asked], asked), encoding: asked };
  for (const [mark, label, encoding] of MARKS) {
    if (begins(bytes, mark)) return { text: inEncoding(bytes, label, encoding), encoding };
  }
  if (bytes.includes(0)) throw new Unreadable("zero");
  if (isUtf8(bytes)) return { text: new TextDecoder().decode(bytes), encoding: "utf-8" };
  if (hasUtf8Letter(bytes)) throw new Unreadable("half");
  return { text: inEncoding(bytes, "windows-1252", "windows-1252"), encoding: "windows-1252" };
}

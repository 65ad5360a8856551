// What each cell is for an import: its value, or why it is wrong. The forms are those of docs/LIMITS.md.
import { Wrong } from "./unreadable.js";

export const LONGEST_TEXT = 200;
const LONGEST_CODE = 16;
const LARGEST_NUMBER = 4294967295;
export const LONGEST_CONTENT = 262144;
// an Excel cell holds no more characters
const LONGEST_CELL = 32767;
const CONTROL = /[\u0000-\u001f\u007f-\u009f]/;
const LINE_BREAK = /\r\n|\r|\n/;
const UNSEEN = /[\u200b-\u200f\u202a-\u202e\u2060-\u2069\ufeff]/;
const FORMULA_ERRORS = new Set([
  "#N/A", "#REF!", "#VALUE!", "#NAME?", "#DIV/0!", "#NULL!", "#NUM!", "#NV", "#BEZUG!", "#WERT!",
]);

const encoder = new TextEncoder();
export const codeOf = (character) => `U+${character.codePointAt(0).toString(16).toUpperCase().padStart(4, "0")}`;
const characters = (text) => [...text].length;

/** A ref or a title. */
export function textOf(cell) {
  if (!cell) throw new Wrong("empty");
  if (FORMULA_ERRORS.has(cell) || /^#{3,}$/.test(cell)) throw new Wrong("formula");
  if (LINE_BREAK.test(cell)) throw new Wrong("lines");
  const found = CONTROL.exec(cell);
  if (found) throw new Wrong("control", { character: codeOf(found[0]) });
  const bytes = encoder.encode(cell).length;
  if (bytes > LONGEST_TEXT) throw new Wrong("long", { count: characters(cell), bytes, most: LONGEST_TEXT });
  return cell;
}

/** A cell with one space in place of each line break, and of the spaces around it. */
export const inOneLine = (cell) =>
  cell.split(LINE_BREAK).map((part) => part.replace(/^[ \t]+|[ \t]+$/g, "")).join(" ");

/** What somebody should look at in a text that is of its form: its kind, or null. */
export function noteOf(cell) {
  if (/^[0-9][.,][0-9]+E\+[0-9]+$/.test(cell)) return "shortened";
  if (cell.includes("\ufffd")) return "lost";
  return UNSEEN.test(cell) ? "unseen" : null;
}

/** The number of an aggregation. */
export function numberOf(cell) {
  if (!cell) throw new Wrong("numberless");
  if (!/^[0-9]+$/.test(cell)) throw new Wrong("number");
  if (Number(cell) < 1 || Number(cell) > LARGEST_NUMBER) throw new Wrong("range", { most: LARGEST_NUMBER });
  return cell;
}

/** The code of a class or of a schedule, or none. */
export function codeCell(cell) {
  if (cell && !/^[A-Za-z0-9-]+$/.test(cell)) throw new Wrong("code");
  if (cell.length > LONGEST_CODE) throw new Wrong("longCode", { count: cell.length, most: LONGEST_CODE });
  return cell;
}

const isBase64 = (text) => {
  try {
    return btoa(atob(text)) === text;
  } catch {
    return false;
  }
};

export const contentBytes = (base64) => (base64.length / 4) * 3 - (/=*$/.exec(base64)[0].length);

/** The base64 of a content as the office reads it. Line breaks and spaces in it are passed over. */
export function contentOf(cell) {
  const joined = cell.replace(/\s+/g, "");
  if (!isBase64(joined)) throw new Wrong(characters(cell) === LONGEST_CELL ? "cut" : "base64");
  const bytes = contentBytes(joined);
  if (bytes > LONGEST_CONTENT) throw new Wrong("large", { bytes, most: LONGEST_CONTENT });
  return joined;
}

// What is wrong with a text that a field does not take, and what may have been meant: the name of a text, with its values.
import { isCode } from "./forms.js";

const MOST_LETTERS = 16;
const MOST_BYTES = 200;
const encoder = new TextEncoder();

/** How German letters are written where there are none. */
const PLAIN = { ä: "ae", ö: "oe", ü: "ue", Ä: "Ae", Ö: "Oe", Ü: "Ue", ß: "ss" };

/** The code that somebody may have meant: what no code has becomes a hyphen; empty if that is none either. */
function likeCode(text) {
  const code = text.replace(/[äöüÄÖÜß]/g, (letter) => PLAIN[letter]).replace(/[^A-Za-z0-9]+/g, "-").replace(/^-|-$/g, "");
  return isCode(code) ? code : "";
}

/** What is wrong with a text that is no code. */
export function codeWrong(text) {
  if (!text) return ["fields.codeEmpty", {}];
  if (/^[A-Za-z0-9-]+$/.test(text)) return ["fields.codeLong", { count: text.length, most: MOST_LETTERS }];
  const other = likeCode(text);
  const strange = [...new Set(text.replace(/[A-Za-z0-9\s-]/gu, ""))].join(" ");
  const key = strange ? "codeStrange" : "codeSpace";
  return [other ? `fields.${key}Other` : `fields.${key}`, { strange, other }];
}

/** What is wrong with a text that is too long, or none. */
export function textWrong(text) {
  if (!text) return ["fields.textEmpty", {}];
  const over = encoder.encode(text).length - MOST_BYTES;
  if (over > 0) return [`fields.textLong.${over === 1 ? "one" : "many"}`, { count: over }];
  return ["fields.textWrong", {}];
}

/** What is wrong with a text that is no number of a thing. */
export const numberWrong = (text) => [text ? "fields.numberWrong" : "fields.numberEmpty", {}];

/** What is wrong with a text that is no day. */
export const dayWrong = (text) => [text ? "fields.dayWrong" : "fields.dayEmpty", {}];

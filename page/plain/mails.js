// The header of a mail: the day on which it was sent, by its own time zone, and its subject.
import { written } from "./days.js";
import { isDay } from "./forms.js";

const MONTHS = ["jan", "feb", "mar", "apr", "may", "jun", "jul", "aug", "sep", "oct", "nov", "dec"];
/** A header is looked for in so many bytes. */
export const HEAD = 262144;

/** The fields of a header by their names in small letters; the first of a name counts, and folded lines are one. */
function fieldsOf(text) {
  const [head] = text.split(/\r?\n\r?\n/, 1);
  const fields = new Map();
  for (const line of head.replace(/\r?\n[ \t]+/g, " ").split(/\r?\n/)) {
    const found = /^([!-9;-~]+):[ \t]*(.*)$/.exec(line);
    if (found && !fields.has(found[1].toLowerCase())) fields.set(found[1].toLowerCase(), found[2].trim());
  }
  return fields;
}

/** The day of a date as RFC 5322 has it, or null; two digits of a year are those of RFC 5322. */
export function mailDay(text) {
  const found = /^(?:[a-z]{3},)?\s*(\d{1,2})\s+([a-z]{3})[a-z]*\.?\s+(\d{2,4})\b/i.exec(text);
  if (!found) return null;
  const [day, year] = [Number(found[1]), Number(found[3])];
  const month = MONTHS.indexOf(found[2].toLowerCase()) + 1;
  const whole = found[3].length === 4 ? year : year + (found[3].length === 2 && year < 50 ? 2000 : 1900);
  const made = written({ year: whole, month, day });
  return isDay(made) ? made : null;
}

/** The bytes that a word of a subject encodes: base64, or with =XX and _ for a space. */
function wordBytes(way, text) {
  if (/b/i.test(way)) return Uint8Array.from(atob(text), (it) => it.charCodeAt(0));
  const plain = text.replaceAll("_", " ").replace(/=([0-9A-F]{2})/gi, (_, code) => String.fromCharCode(parseInt(code, 16)));
  return Uint8Array.from(plain, (it) => it.charCodeAt(0));
}

/** A subject in words; a word whose encoding nobody knows stays as it is. */
function inWords(subject) {
  const joined = subject.replace(/\?=\s+=\?/g, "?==?");
  return joined.replace(/=\?([^?]+)\?([bq])\?([^?]*)\?=/gi, (whole, charset, way, text) => {
    try {
      return new TextDecoder(charset.split("*")[0]).decode(wordBytes(way, text));
    } catch {
      return whole;
    }
  });
}

/** The day and the subject of a mail by the first bytes of its file; null where the header has none. */
export function mailOf(bytes) {
  const fields = fieldsOf(new TextDecoder("utf-8").decode(bytes));
  const subject = inWords(fields.get("subject") ?? "").replace(/[\u0000-\u001f\u007f-\u009f]+/g, " ").trim();
  return { day: mailDay(fields.get("date") ?? ""), subject: subject || null };
}

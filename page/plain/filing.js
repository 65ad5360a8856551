// Files that are to become records: what each will be, what is wrong with it, and how large its act is.
import { addRecord, bytesOf } from "./acts.js";
import { isCode, isDay, isNumber, isText, today } from "./forms.js";

/** The most bytes of a content, and the most files that are listed at once. */
export const MOST_CONTENT = 262144;
export const MOST_FILES = 1000;

/** What is written of each record, in the order of the columns. */
export const MEMBERS = ["ref", "title", "originated", "aggregation", "class", "schedule"];

/**
 * What a record is called where nobody writes anything: by the place, the name and the last change of its file, and by
 * what the file says of itself, as a mail does.
 */
export function suggested({ name, lastModified }, place = name, said = {}) {
  const dot = name.lastIndexOf(".");
  const title = dot > 0 ? name.slice(0, dot) : name;
  return { ref: place, title, originated: today(new Date(lastModified)), ...said };
}

/** What a record gets from what is written for all files. */
export function forAll(common, file, place, said) {
  const own = suggested(file, place, said);
  return {
    ref: `${common.prefix}${own.ref}`,
    title: common.title || own.title,
    originated: common.originated || own.originated,
    aggregation: common.aggregation,
    class: common.class,
    schedule: common.schedule,
  };
}

const isCodeOrNone = (text) => text === "" || isCode(text);
const FORMS = {
  ref: [isText, "fields.textWrong"],
  title: [isText, "fields.textWrong"],
  originated: [isDay, "fields.dayWrong"],
  aggregation: [isNumber, "fields.numberWrong"],
  class: [isCodeOrNone, "fields.codeWrong"],
  schedule: [isCodeOrNone, "fields.codeWrong"],
};

/** The name of the text that says that an aggregation is needed. */
export const NO_AGGREGATION = "file.noAggregation";

/** What is wrong with one value: the name of the text that says it, or none. */
export function wrongOf(name, value) {
  if (name === "aggregation" && value === "") return NO_AGGREGATION;
  const [takes, wrong] = FORMS[name];
  return takes(value) ? "" : wrong;
}

/**
 * What somebody should look at in the day on which a record originated: that it has not come, or is after the day of
 * filing. The text that says it, with its values, or null.
 * @param {string} originated
 * @param {string} now today
 * @param {string} day that of filing
 */
export function lookAtDay(originated, now, day) {
  if (!isDay(originated)) return null;
  if (originated > now) return ["sheetActs.look.future", { today: now }];
  return isDay(day) && originated > day ? ["file.afterFiling", { day }] : null;
}

/** What is wrong with the values of each record, by its columns. No two records have the same ref. */
export function wrongsOf(all) {
  const seen = new Set();
  return all.map((values) => {
    const said = MEMBERS.map((name) => [name, wrongOf(name, values[name])]);
    const wrong = Object.fromEntries(said.filter(([, key]) => key));
    if (!wrong.ref && seen.has(values.ref)) wrong.ref = "file.twice";
    seen.add(values.ref);
    return wrong;
  });
}

/** How many bytes the act of a record has as JSON, whose content has so many bytes. */
export function actBytes(day, values, size) {
  return bytesOf(JSON.stringify(addRecord(day, { ...values, content: "" }))) + 4 * Math.ceil(size / 3);
}

/** What the files add up to: how many, of how many bytes, and how many of them are too large. */
export function sizes(files) {
  const large = files.filter(({ size }) => size > MOST_CONTENT).length;
  return { count: files.length, bytes: files.reduce((sum, { size }) => sum + size, 0), large };
}

// a multiple of three, so that the parts of base64 can be joined
const PART = 32766;

/** The base64 of bytes, with padding. */
export function base64(bytes) {
  let text = "";
  for (let at = 0; at < bytes.length; at += PART) text += btoa(String.fromCharCode(...bytes.subarray(at, at + PART)));
  return text;
}

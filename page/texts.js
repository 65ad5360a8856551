// All words of the page stand in one file for each language, texts/LANGUAGE.json; the browser's first language that has one
// is taken, else English.
import { placeOf } from "./ask.js";

let texts = {};

async function fileOf(language) {
  const answer = await fetch(placeOf(`web/texts/${language}.json`), { cache: "no-store" });
  return answer.ok ? answer.json() : null;
}

/** Reads the words of the first language that has a file. */
export async function load(languages) {
  const wanted = new Set([...languages.map((it) => it.toLowerCase().split("-")[0]).filter((it) => /^[a-z]{2,3}$/.test(it)), "en"]);
  for (const language of wanted) {
    const found = await fileOf(language);
    if (found) {
      texts = found;
      return;
    }
  }
  throw new Error("no texts");
}

export const all = () => texts;

/** Puts other texts in the place of some: by their names, each with the names of those that say it in their place. */
export function replaceTexts(changes) {
  for (const [key, keys] of changes) {
    const names = key.split(".");
    const last = names.pop();
    const part = names.reduce((it, name) => it[name], texts);
    part[last] = keys.map((it) => t(it)).join(" ");
  }
}

/** A text with the values at its places, which are written {name}. */
export function t(key, values = {}) {
  const text = key.split(".").reduce((part, name) => part?.[name], texts);
  return String(text ?? key).replace(/\{(\w+)\}/g, (place, name) => (name in values ? String(values[name]) : place));
}

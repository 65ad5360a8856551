// Refs in place of numbers: what a number or a ref names is shown as it is written, and a ref becomes its number.
import { aboutIt, isThere, numbered, numberOf, part, tree } from "./catalogue.js";
import { partOf } from "./offers.js";
import { grouped, made, plural } from "./page.js";
import { isNumber } from "./plain/forms.js";
import { visible } from "./plain/marks.js";
import { t } from "./texts.js";

const NUMBERED = ["records", "aggregations"];

/** The part of the catalogue whose number a field asks for, or that of a class. A row of a file has no kind of its own. */
function askedOf(input) {
  if (/^file-row-\d+-aggregation$/.test(input.id)) return "aggregations";
  if (!input.matches("[data-field] > input[type=text]")) return "";
  const name = partOf(input);
  return NUMBERED.includes(name) || (name === "classes" && input.closest("[data-field]").dataset.field === "target") ? name : "";
}

const stateOf = ({ closed }) => (closed ? t("catalogue.isClosed", { day: closed }) : t("catalogue.isOpen"));

/** What there is of this number or code, in words; null if the catalogue has none. */
const WORDS = {
  async records(number) {
    const row = await numbered("records", number);
    return row && t("refs.records", { number, ref: visible(row[1]), title: visible(row[2]), status: t(`catalogue.statuses.${row[4]}`) });
  },
  async aggregations(number) {
    const it = await numbered("aggregations", number);
    if (!it) return null;
    const counts = (await tree())?.totals.get(number) ?? {};
    const records = plural("refs.count", Object.values(counts).reduce((sum, count) => sum + count, 0));
    return t("refs.aggregations", { number, ref: visible(it.ref), title: visible(it.title), records, state: stateOf(it) });
  },
  async classes(code) {
    const it = (await part("classes"))?.find((row) => row.code === code);
    return it && t("refs.classes", { code, title: visible(it.title) });
  },
};

/** What is said below a field: what its text names, that it is no number and no ref, or nothing. */
async function wordsFor(name, text) {
  if (!text) return "";
  if (name === "classes") return (await WORDS.classes(text)) ?? "";
  const named = await numberOf(name, text);
  const moment = aboutIt().moment.slice(0, 16).replace("T", " ");
  if (isNumber(text)) {
    const words = (await WORDS[name](Number(text))) ?? t(`refs.none.${name}`, { text, moment });
    const other = named !== undefined && named !== Number(text);
    return other ? `${words} ${t("refs.other", { text, number: grouped(named) })}` : words;
  }
  return named === undefined ? t(`refs.unknown.${name}`, { text, moment }) : WORDS[name](named);
}

/** The room below a field for what it names. */
function roomOf(input) {
  const id = `${input.id}-named`;
  const there = document.getElementById(id);
  if (there) return there;
  const room = made("span", { class: "names", id, role: "status" });
  const wrong = document.getElementById(`${input.id}-wrong`);
  wrong.before(room);
  return room;
}

let turn = 0;

/** Shows below a field what is written in it by now. */
async function echo(input) {
  const mine = ++turn;
  const name = askedOf(input);
  if (!name || !input.closest("[data-field]")) return;
  const words = await wordsFor(name, input.value.trim());
  if (mine !== turn && document.activeElement === input) return;
  roomOf(input).textContent = words;
}

/** Writes the number of a ref in the place of the ref: whether it did. */
async function putNumber(input) {
  const name = askedOf(input);
  const text = input.value.trim();
  if (!NUMBERED.includes(name) || !text || isNumber(text)) return false;
  const number = await numberOf(name, text);
  if (number === undefined || input.value.trim() !== text) return false;
  input.value = String(number);
  return true;
}

/** Does so in all fields of a form, before its values are read. */
export async function putNumbers(form) {
  if (!isThere()) return;
  for (const input of form.querySelectorAll("[data-field] > input[type=text]")) await putNumber(input);
}

async function changed({ target }) {
  if (!isThere() || !target.matches?.("input[type=text]")) return;
  if (await putNumber(target)) target.dispatchEvent(new Event("input", { bubbles: true }));
}

function heard({ target }) {
  if (!isThere()) return;
  if (target.matches?.("[data-field] > input[type=text]")) echo(target);
  // another kind of target is another thing
  const form = target.matches?.("select") ? target.form : null;
  for (const input of form?.querySelectorAll("[data-field] > input[type=text]") ?? []) echo(input);
}

export function start() {
  document.addEventListener("input", heard);
  document.addEventListener("change", changed);
  document.addEventListener("change", heard);
}

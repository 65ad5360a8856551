// Codes and numbers of the catalogue, offered in the fields of all forms. Without a catalogue nothing is offered.
import { aggregations, isThere, makeReady, part, records, refresh } from "./catalogue.js";
import { made } from "./page.js";
import { firstFrom, numberIn, search } from "./plain/catalogue.js";
import { visible } from "./plain/marks.js";
import { t } from "./texts.js";
import { scheduleWords } from "./views/catalogue_tables.js";

const LIST = "offers";
/** So many are offered at a time: what is written makes them fewer. */
const MOST = 50;
/** So many milliseconds after it was looked for, a catalogue is looked for again. */
const LATER = 600000;

/** What a field asks for, by its kind (`data-field`): the first that is like it; a kind like none has no offers. */
const KINDS = [
  // the code of something new is to be another one
  [/Code$/, ""],
  [/schedule/i, "schedules"],
  [/class/i, "classes"],
  [/aggregation|parent/i, "aggregations"],
  [/record/i, "records"],
  [/run|certificate/i, "runs"],
  [/^code$|hold/i, "holds"],
];

const TARGETS = { class: "classes", aggregation: "aggregations", record: "records" };

/** The part of the catalogue that a field asks for; where that is chosen in the same form, it is as the choice says. */
export function partOf(input) {
  const { field, offers } = input.closest("[data-field]").dataset;
  if (offers !== undefined) return offers;
  if (["target", "number"].includes(field)) return TARGETS[input.form.querySelector("select")?.value] ?? "";
  return KINDS.find(([kind]) => kind.test(field))?.[1] ?? "";
}

const offer = (value, label) => made("option", { value, label: visible(label) });
const has = (words, text) => words.toLowerCase().includes(text.toLowerCase());

/** Those that a text is found in, by their values and labels. */
function offersOf(rows, text, of) {
  const found = [];
  for (const row of rows) {
    const [value, label] = of(row);
    if (has(`${value} ${label}`, text)) found.push(offer(value, label));
    if (found.length === MOST) break;
  }
  return found;
}

/** Those whose numbers begin with the text, then those whose ref or title has it. */
async function numbered(index, text, of) {
  if (!index) return [];
  await makeReady(index);
  const { rows } = index;
  const begun = [];
  if (/^[1-9]\d*$/.test(text)) {
    const last = rows.length ? numberIn(rows.at(-1)) : 0;
    for (let [low, count] = [Number(text), 1]; low <= last; low *= 10, count *= 10) {
      const from = firstFrom(rows, low);
      begun.push(...rows.slice(from, Math.min(firstFrom(rows, low + count), from + MOST)));
    }
  }
  const others = search(index, text, MOST).found;
  return [...new Set([...begun, ...others])].slice(0, MOST).map((row) => offer(...of(row)));
}

const rowsOf = async (name) => (await part(name)) ?? [];
const inForce = (holds) => holds.filter((it) => it.lifted === null);
const ofSchedule = (it) => [it.code, scheduleWords(it)];
const ofClass = (it) => [it.code, it.title];
const ofHold = (it) => [it.code, it.reason];
const ofRun = (it) => [String(it.number), `${it.day} · ${it.by}`];
const ofAggregation = (it) => [String(it.number), `${it.ref} · ${it.title}`];
const ofRecord = ([number, ref, title]) => [String(number), `${ref} · ${title}`];

/** The offers of each part of the catalogue. */
const OFFERS = {
  schedules: async (text) => offersOf(await rowsOf("schedules"), text, ofSchedule),
  classes: async (text) => offersOf(await rowsOf("classes"), text, ofClass),
  holds: async (text) => offersOf(inForce(await rowsOf("holds")), text, ofHold),
  runs: async (text) => offersOf([...(await rowsOf("runs"))].reverse(), text, ofRun),
  aggregations: async (text) => numbered(await aggregations(), text, ofAggregation),
  records: async (text) => numbered(await records(), text, ofRecord),
};

let turn = 0;

/** Offers what goes with what is written in this field by now. */
async function offerIn(input) {
  const mine = ++turn;
  const name = partOf(input);
  if (!(name in OFFERS)) return;
  const options = await OFFERS[name](input.value.trim());
  if (mine !== turn || document.activeElement !== input) return;
  document.getElementById(LIST).replaceChildren(...options);
  input.setAttribute("list", LIST);
}

let looked = 0;

async function heard({ target }) {
  if (!isThere() || !target.matches?.("[data-field] > input[type=text]")) return;
  // a page that stays open looks for a later catalogue now and then
  if (Date.now() - looked > LATER) {
    looked = Date.now();
    await refresh();
  }
  offerIn(target);
}

/** Looks whether a catalogue is there, and offers what it has from then on. */
export async function start() {
  document.body.append(made("datalist", { id: LIST, "aria-label": t("catalogue.title") }));
  document.addEventListener("focusin", heard);
  document.addEventListener("input", heard);
  looked = Date.now();
  await refresh();
}

// What the views File and Import share: acts are sent with their progress, and what became of each is said in words.
import { numbered, numberOf, refresh } from "../catalogue.js";
import { field } from "../fields.js";
import { byId, factsOf, grouped, inShort, link, made, paragraph, plural, say, sentence, told, translate } from "../page.js";
import { visible } from "../plain/marks.js";
import { counted, isSettled, sendAll } from "../plain/sending.js";
import { whyNot } from "../plain/vault.js";
import { senderOf } from "../reasons.js";
import { all, t } from "../texts.js";

const LOOKS = {
  added: "done", same: "done", refused: "wrong", unread: "wrong", unput: "wrong", unknown: "unknown", left: "unknown",
};

/** The text that says what became of one act that files a record. */
function keyOf({ kind, status }, what) {
  if (kind === "unput") return `vault.unput.${whyNot(status)}`;
  return kind === "added" && what ? `filing.${what}Added` : `filing.${kind}`;
}

/**
 * What became of one act, in words. `what` says what was filed if it was not the file as a content: `manifest`, or
 * `vault` for a file that is in the vault. `part` is the part of the texts: that of records, or that of acts from a sheet.
 */
export function fateWords(fate, what = "", part = "filing") {
  const record = fate.number === undefined ? "" : link(`#record?number=${fate.number}`, fate.number);
  const words = part === "filing" ? sentence(keyOf(fate, what), { record, status: fate.status }) : [t(`${part}.${fate.kind}`, fate)];
  if (fate.kind !== "refused") return made("span", { class: `fate ${LOOKS[fate.kind]}` }, ...words);
  const row = all().refusals[fate.refusal] ?? { name: "", meaning: "", do: "" };
  const refusal = t("said.refusal", { number: fate.refusal, name: row.name });
  const strong = made("strong", {}, `${refusal}.`);
  return made("span", { class: "fate wrong" }, strong, ` ${t("said.meaning", row)} ${t("said.do", row)}`);
}

/** Which record has a ref that was refused as taken, in words, by the catalogue; null where it does not say so. */
export async function whoHas(ref) {
  if ((await refresh()) === null) return null;
  const number = await numberOf("records", ref);
  if (number === undefined) return null;
  const file = await numbered("aggregations", (await numbered("records", number))[3]);
  const parts = { ref: visible(ref), record: link(`#record?number=${number}`, number), file: visible(file?.ref ?? "") };
  return made("p", { class: "fate wrong" }, ...sentence(file ? "file.takenIn" : "file.taken", parts));
}

/** Where the number of an aggregation comes from, as nodes: the views are links, or their names. */
export function whereAggregation(isLinked = true) {
  const view = (name) => (isLinked ? link(`#${name}`, t(`${name}.title`)) : t(`${name}.title`));
  return sentence("file.whereAggregation", { plan: view("plan"), catalogue: view("catalogue") });
}

/** The sums of the view `name` that are not 0, each with its word, from a part of the texts; of bytes a short form. */
export function showSums(name, sums, part = name) {
  const figure = (sum, number) => (sum === "bytes" ? inShort(number) : grouped(number));
  const words = ([sum, number]) => [made("dt", {}, t(`${part}.totals.${sum}`)), made("dd", {}, figure(sum, number))];
  const shown = Object.entries(sums).filter(([, number]) => number !== 0);
  byId(`${name}-totals`).replaceChildren(...shown.map((it) => made("div", {}, ...words(it))));
}

/** The words of the button that sends: once nothing is left it is not the one to press next. */
export function showSubmit(name, words, isLeft) {
  byId(`${name}-submit`).textContent = words;
  byId(`${name}-submit`).classList.toggle("quiet", !isLeft);
}

/** The form that sends, with room for its progress and for what came of it: the first part of the view's last panel. */
export function addPanel(name) {
  const day = made("div", { "data-field": "day", id: `${name}-send-day` });
  field(day);
  const about = made("p", { class: "hint", "data-text": `${name}.sendAbout` });
  const legend = made("legend", { "data-text": `${name}.send` });
  const button = made("button", { id: `${name}-submit` });
  const form = made("form", { id: `${name}-send` }, made("fieldset", {}, legend, day, button, about));
  const bar = made("progress", { id: `${name}-bar`, max: "1", value: "0", "aria-labelledby": `${name}-at` });
  const at = made("span", { id: `${name}-at`, role: "status" });
  const stop = made("button", { type: "button", id: `${name}-stop`, class: "quiet", "data-text": "filing.stop" });
  const progress = made("div", { id: `${name}-progress`, class: "progress", hidden: "" }, bar, at, stop);
  const outcome = made("div", { id: `${name}-send-outcome`, class: "outcome", role: "status", tabindex: "-1" });
  const panel = byId(`${name}-sending`);
  panel.prepend(form, progress, outcome);
  translate(panel);
}

/**
 * Sends items of the view `name`, and shows how far that is; `changed` is called after each request. The answer that
 * stopped it, or null.
 */
export async function send(name, items, changed) {
  const sender = senderOf(byId(`${name}-send`));
  const bar = byId(`${name}-bar`);
  const stop = byId(`${name}-stop`);
  const held = document.querySelectorAll(`#${name} [data-held]`);
  let goesOn = true;
  const end = () => {
    goesOn = false;
    byId(`${name}-at`).textContent = t("filing.stopping");
  };
  const stay = (event) => event.preventDefault();
  const hold = (is) => {
    for (const part of held) part.inert = is;
    byId(`${name}-progress`).hidden = !is;
  };
  stop.addEventListener("click", end);
  // a page that is left just now would not learn what became of the acts
  addEventListener("beforeunload", stay);
  hold(true);
  const answer = await sendAll(items, sender, ({ behind, list, lists }) => {
    changed();
    bar.value = behind / items.length;
    const words = { behind: grouped(behind), count: grouped(items.length), list, lists };
    if (goesOn) byId(`${name}-at`).textContent = t("filing.progress", words);
    return goesOn;
  });
  stop.removeEventListener("click", end);
  removeEventListener("beforeunload", stay);
  hold(false);
  changed();
  return answer;
}

const FACTS = ["added", "same", "refused", "unread", "unput", "unknown", "left"];

/**
 * Says what became of all that was sent: the counts, the answer that stopped it, and what can be done now, in the words
 * of a part of the texts.
 */
export function sayFates(place, items, answer, part = "filing") {
  const counts = counted(items);
  const kinds = FACTS.filter((it) => counts[it] || it === "added");
  const facts = kinds.map((it) => [t(`${part}.counts.${it}`), grouped(counts[it])]);
  const settled = items.filter(isSettled).length;
  const { length } = items;
  const partly = () => t(`${part}.partly`, { settled: grouped(settled), count: grouped(length) });
  const end = made("p", { class: "verdict" }, settled === length ? plural(`${part}.whole`, length) : partly());
  const retry = `${part}.${counts.unknown ? "retryUnknown" : "retry"}`;
  const stopped = counts.unknown + counts.left ? [paragraph(t(retry))] : [];
  if (counts.same) stopped.unshift(paragraph(t(`${part}.sameAbout`)));
  const kind = settled === length ? "done" : counts.refused + counts.unread + counts.unput ? "wrong" : "unknown";
  say(place, kind, end, factsOf(facts), ...(answer ? told(answer) : []), ...stopped);
}

/**
 * Takes what is dropped on a place, as what is chosen by its field: the files, the names of folders, and all of it as the
 * entries of a file system, if the browser has these.
 */
export function onDrop(place, take) {
  const over = (is) => place.classList.toggle("over", is);
  for (const name of ["dragenter", "dragover"]) {
    place.addEventListener(name, (event) => {
      event.preventDefault();
      over(true);
    });
  }
  place.addEventListener("dragleave", (event) => over(place.contains(event.relatedTarget)));
  place.addEventListener("drop", (event) => {
    event.preventDefault();
    over(false);
    const entries = [...event.dataTransfer.items].map((item) => item.webkitGetAsEntry?.());
    const isFolder = (at) => entries.length === event.dataTransfer.files.length && entries[at]?.isDirectory;
    const files = [...event.dataTransfer.files];
    const names = files.filter((_, at) => isFolder(at)).map(({ name }) => name);
    take(files.filter((_, at) => !isFolder(at)), names, names.length ? entries : null);
  });
}

/** A file that is dropped beside the place for it would be opened in place of the page. */
export function guardPage() {
  for (const name of ["dragover", "drop"]) addEventListener(name, (event) => event.preventDefault());
}

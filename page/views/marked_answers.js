// What came of many acts: counts, one list of answers, and a button that goes on with what has no answer.
import { factsOf, grouped, link, made, paragraph, plural, save, say, tableOf, told, unbroken } from "../page.js";
import { csvOf } from "../plain/csv.js";
import { countsOf, stepsOf } from "../plain/many.js";
import { visible } from "../plain/marks.js";
import { all, t } from "../texts.js";
import { recordsOf } from "./catalogue_tables.js";

/** So many answers are shown at first; those that ask for something come first. */
const SOME = 50;
const ORDER = ["refused", "unknown", "left", "already", "done"];
const LOOKS = { done: "done", already: "done", refused: "wrong", unknown: "unknown", left: "unknown" };

/** What became of an act, as a text. */
function fateText(deed, { act, fate }) {
  if (fate.kind === "refused") {
    const row = all().refusals[fate.refusal] ?? { name: "", meaning: "", do: "" };
    const name = t("said.refusal", { number: fate.refusal, name: row.name });
    return `${name}. ${t("said.meaning", row)} ${t("said.do", row)}`;
  }
  if (act.act === "place-hold") return t(`marked.hold.own.${fate.kind}`, { hold: act.code });
  if (fate.kind === "done" || fate.kind === "already") return t(`marked.${deed}.${fate.kind}`, act);
  return t(`marked.${fate.kind}`);
}

function linkOf({ kind, number }) {
  if (kind === "record") return link(`#record?number=${number}`, number);
  return kind === "aggregation" ? recordsOf(number, number) : made("code", {}, number);
}

function cellsOf(deed, step) {
  const { item, act, fate } = step;
  const answer = made("span", { class: `fate ${LOOKS[fate.kind]}` }, ...unbroken(fateText(deed, step), act.hold ?? act.code ?? act.schedule));
  if (!item) return [made("code", {}, act.code), "", "", answer];
  return [linkOf(item), visible(item.ref), visible(item.title ?? ""), answer];
}

const headings = () => ["number", "ref", "title", "answer"].map((name) => t(`marked.columns.${name}`));

/** The answers as a table, the first of them at once. */
function tableOfAnswers(deed, steps) {
  const sorted = [...steps].sort((one, other) => ORDER.indexOf(one.fate.kind) - ORDER.indexOf(other.fate.kind));
  const table = (some) => tableOf(t("marked.answers"), headings(), some.map((step) => cellsOf(deed, step)), "answers");
  const place = made("div", {}, table(sorted.slice(0, SOME)));
  if (sorted.length > SOME) {
    const more = made("button", { type: "button", class: "quiet" }, t("marked.listAll", { count: grouped(sorted.length) }));
    more.addEventListener("click", () => place.replaceChildren(table(sorted)));
    place.append(more);
  }
  return place;
}

/** Saves the answers as a sheet. */
function saver(deed, steps) {
  const button = made("button", { type: "button", class: "quiet" }, t("marked.saveAnswers"));
  button.addEventListener("click", () => {
    const rows = steps.map((step) => [step.item?.number ?? step.act.code, step.item?.ref, step.item?.title, fateText(deed, step)]);
    save(t("marked.answersFile"), csvOf(headings(), rows, t("csv.separator")), "text/csv");
  });
  return button;
}

/** What is said of how it ended, and what can be done now. */
function endOf({ deed, counts, again }) {
  const open = counts.left + counts.unknown;
  if (!open) return [];
  const button = made("button", { type: "button" }, plural("marked.goOn", open));
  button.addEventListener("click", again);
  const words = [];
  if (counts.unknown) words.push(paragraph(t(`marked.${deed}.lost`)));
  if (counts.left) words.push(paragraph(t(counts.refused ? "marked.stoppedRefused" : "marked.stopped")));
  return [...words, button];
}

const FACTS = ["done", "already", "refused", "unknown", "left"];

/**
 * Says what came of a deed, and has it seen: whether all of it is so now.
 * @param {HTMLElement} place
 * @param {{ deed: string, requests: import("../plain/many.js").Batch[], answer: object | null, again: function(): void }} it
 *   `answer` is the one that stopped it
 */
export function sayAnswers(place, { deed, requests, answer, again }) {
  const counts = countsOf(requests);
  const steps = stepsOf(requests);
  const items = steps.filter(({ item }) => item);
  const settled = items.filter(({ fate }) => ["done", "already"].includes(fate.kind)).length;
  const isWhole = steps.every(({ fate }) => ["done", "already"].includes(fate.kind));
  const words = isWhole ? plural(`marked.${deed}.whole`, settled) : t("marked.partly", { settled: grouped(settled), count: grouped(items.length) });
  const facts = FACTS.filter((name) => counts[name]).map((name) => [t(`marked.counts.${name}`), grouped(counts[name])]);
  // what an answer says of acts is in the list; what it says of itself, as that nobody may act, is not
  const own = answer && ![200, 409].includes(answer.status) ? told(answer) : [];
  const kind = isWhole ? "done" : counts.unknown || !counts.refused ? "unknown" : "wrong";
  const end = endOf({ deed, counts, again });
  say(place, kind, made("p", { class: "verdict" }, words), ...(isWhole ? [] : [factsOf(facts)]), ...own, ...end, tableOfAnswers(deed, steps), saver(deed, steps));
  place.focus();
  return isWhole;
}

// A list for approval, on paper: the office, the day, the filter, counts by action, the rows, and lines for signatures.
import { officeName } from "../name.js";
import { factsOf, grouped, made, paragraph, plural } from "../page.js";
import { visible } from "../plain/marks.js";
import { today } from "../plain/forms.js";
import { t } from "../texts.js";

const ACTIONS = ["destroy", "transfer", "review"];

/** How many rows of each action there are, and how many of them are held. */
function countsOf(rows) {
  const held = (them) => them.filter((row) => row.held !== null).length;
  const word = (them) => t("approval.count", { count: grouped(them.length), held: grouped(held(them)) });
  const ofAction = (action) => [t(`actions.${action}`), word(rows.filter((row) => row.action === action))];
  return [...ACTIONS.map(ofAction), [t("approval.all"), word(rows)]];
}

/** Lines to be written on, for one person. */
function signature(role) {
  const line = (name) => made("div", { class: "line" }, made("span", {}, t(`approval.${name}`)));
  return made("div", { class: "signature" }, made("strong", {}, t(`approval.${role}`)), ...["name", "day", "signature"].map(line));
}

function tableOf(names, columns, cells) {
  // only refs and titles may be broken
  const kind = (at) => (["ref", "title", "aggregation"].includes(names[at]) ? "long" : names[at] ? "whole" : "room");
  const cell = (tag) => (word, at) => made(tag, { class: kind(at) }, visible(String(word ?? "")));
  const row = (words, tag) => made("tr", {}, ...words.map(cell(tag)));
  const head = made("thead", {}, row([...columns, t("approval.decision")], "th"));
  return made("table", {}, head, made("tbody", {}, ...cells.map((words) => row([...words, ""], "td"))));
}

/**
 * Prints a list for approval.
 * @param {{ question: object, title: string, caption: string, isMarked: boolean, filter: string[][], rows: object[],
 *   names: string[], columns: string[], cells: any[][] }} it `names` are those of the columns, and `columns` their words
 */
export function printApproval({ title, caption, isMarked, filter, rows, names, columns, cells }) {
  document.getElementById("approval")?.remove();
  const facts = [
    [t("approval.list"), `${title}. ${caption}`],
    [t("approval.printed"), today()],
    [t("approval.filter"), filter.length ? filter.map(([name, value]) => `${name}: ${value}`).join(", ") : t("approval.noFilter")],
    [t("approval.rows"), plural(isMarked ? "approval.marked" : "approval.shown", rows.length)],
  ];
  const paper = made(
    "section",
    { id: "approval", class: "approval" },
    paragraph(officeName(), "office-name"),
    made("h1", {}, t("approval.title")),
    factsOf(facts),
    made("h2", {}, t("approval.counts")),
    factsOf(countsOf(rows)),
    tableOf(names, columns, cells),
    paragraph(t("approval.about")),
    made("div", { class: "signatures" }, signature("owner"), signature("records")),
  );
  document.body.append(paper);
  document.body.classList.add("approving");
  const end = () => {
    document.body.classList.remove("approving");
    paper.remove();
  };
  addEventListener("afterprint", end, { once: true });
  print();
}

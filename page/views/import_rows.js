// The preview of the view Import: what each row of the sheet will be, what is wrong with it, and what became of it.
import { byId, grouped, inBytes, label, made } from "../page.js";
import { visible } from "../plain/marks.js";
import { isSettled } from "../plain/sending.js";
import { contentBytes } from "../sheet/cells.js";
import { RECORDS, formOf } from "../sheet/kinds.js";
import { t } from "../texts.js";
import * as vault from "./file_vault.js";
import { fateWords } from "./filing.js";
import { PART, columnWord, foundKey } from "./import_acts.js";

/** So many rows are shown, and as many more each time that somebody asks for more. */
const SHOWN = 200;

let rows = [];
let shown = SHOWN;
/** What each row is, and the columns that are shown of it. */
let kind = RECORDS;
let names = formOf(RECORDS).names;
/** A row of a plan has so many columns that only these are apart; the others are together, in a column of this name. */
const APART = ["act", "code", "ref", "title"];
const REST = "rest";
const restOf = () => formOf(kind).names.filter((name) => !APART.includes(name));

/** What became of the act of a row, in words. */
const fateOf = (fate, { document } = {}) => {
  if (kind === RECORDS) return fateWords(fate, document && vault.goesIn(document.file) ? "vault" : "");
  return fateWords(fate, "", fate.kind === "added" && fate.number ? `${PART}.numbered` : PART);
};

/** A cell in a message: its beginning. */
const inShort = (text) => visible(text.length <= 40 ? text : `${text.slice(0, 37)}...`);

/** What is wrong with a cell, or what somebody should look at, in words; where it is in the sheet comes first. */
export function foundWords(found, section) {
  const name = found.name ? ` (${columnWord(found.name)})` : "";
  const text = found.text ? ` ${t("import.quoted", { text: inShort(found.text) })}` : "";
  const values = { ...found.values, order: found.values.order ? t(`import.orders.${found.values.order}`) : "" };
  for (const key of ["bytes", "most", "count"]) if (key in values) values[key] = grouped(values[key]);
  return `${found.where}${name}:${text} ${t(foundKey(section, found.kind), values)}`;
}

/** Whether a row was not taken: it is wrong, or the office refused it. */
export const isRefused = (row) => row.wrong.length > 0 || row.item?.fate?.kind === "refused";

/**
 * Why a row was not taken, in one text: what is wrong with it, or the refusal. `moved` gives what is wrong as it is to
 * be said, where the row is elsewhere than in the sheet.
 */
export function reasonOf(row, moved = (it) => it) {
  if (row.wrong.length) return row.wrong.map((it) => foundWords(moved(it), "wrong")).join("; ");
  return fateOf(row.item.fate).textContent;
}

const TAKES = {
  all: () => true,
  good: (row) => !row.wrong.length && !row.left,
  wrong: isRefused,
  look: (row) => row.notes.length > 0,
  open: (row) => row.item?.fate && !isSettled(row.item) && row.item.fate.kind !== "refused",
};

function answerOf(row) {
  const look = (it) => t("import.lookAt", { what: foundWords(it, "look") });
  const notes = row.notes.map((it) => made("p", { class: "fate unknown" }, look(it)));
  const wrongs = row.wrong.map((it) => made("p", { class: "fate wrong" }, foundWords(it, "wrong")));
  if (wrongs.length) return [...wrongs, ...notes];
  if (row.left) return [made("span", { class: "hint" }, t(`${PART}.passed.${row.left}`)), ...notes];
  if (row.item.fate) return [fateOf(row.item.fate, row), ...notes];
  const ready = kind === RECORDS ? "import.ready" : `${PART}.ready.${row.act.act}`;
  return [made("span", { class: "hint" }, t(ready)), ...notes];
}

/** A target as people read it, as `record 5`. */
function targetWords(target) {
  const [kind, name] = target.split(":");
  return t(`catalogue.targets.${kind}`, { name });
}

/** What a row has in a column: the value that will be sent, else what the sheet has. */
function shownIn(row, name, at) {
  if (kind === RECORDS) return row.values[at] ?? "";
  if (name === REST) {
    const there = restOf().map((it) => [it, shownIn(row, it)]).filter(([, value]) => value);
    return there.map(([it, value]) => `${columnWord(it)}: ${value}`).join("; ");
  }
  const value = row.act?.[name];
  if (name === "act" && value) return t(`${PART}.kinds.${value}`);
  if (name === "target" && value) return targetWords(value);
  return ["string", "number"].includes(typeof value) ? String(value) : row.shown[name];
}

/** A document as the content of a row: its size, and that it goes into the vault. */
function documentWords({ file }) {
  const size = inBytes(file.size);
  return vault.goesIn(file) ? t("import.documents.vault", { size }) : size;
}

/** A cell of the preview: the value that will be sent, else what the sheet has. */
function cellOf(row, name, at) {
  const value = shownIn(row, name, at);
  const wrong = row.wrong.find((it) => it.name === name);
  if (wrong) return made("td", { role: "cell", class: "bad" }, inShort(wrong.text));
  const isBad = name === REST && row.wrong.some((it) => restOf().includes(it.name));
  if (isBad) return made("td", { role: "cell", class: "bad" }, visible(value));
  const isContent = name === "content" && value;
  if (isContent && row.document) return made("td", { role: "cell" }, documentWords(row.document));
  const words = isContent ? inBytes(contentBytes(value)) : visible(value);
  return made("td", { role: "cell" }, words);
}

function nodeOf(row) {
  const cells = names.map((name, at) => cellOf(row, name, at));
  const number = made("th", { scope: "row", role: "rowheader" }, String(row.number));
  return made("tr", { role: "row" }, number, ...cells, made("td", { role: "cell" }, ...answerOf(row)));
}

/** Shows the rows that the filter takes, as many as are asked for. */
export function draw() {
  const takes = TAKES[byId("import-filter").value] ?? TAKES.all;
  const taken = rows.filter(takes);
  byId("import-table").tBodies[0].replaceChildren(...taken.slice(0, shown).map(nodeOf));
  const count = Math.min(shown, taken.length);
  const words = { count: grouped(rows.length), shown: grouped(count), taken: grouped(taken.length) };
  byId("import-caption").textContent = t("import.caption", words);
  const left = taken.length - count;
  byId("import-more").hidden = left === 0;
  byId("import-more").textContent = t("import.more", { count: grouped(Math.min(left, SHOWN)) });
}

/** Takes the rows of a sheet in place of those of the one before. */
export function take(these) {
  rows = these;
  shown = SHOWN;
  draw();
}

/** Has the columns of what each row is. */
export function takeKind(this_) {
  kind = this_;
  names = kind === "plan" ? [...APART, REST] : formOf(kind).names;
  const words = [t("import.columns.row"), ...names.map(columnWord), t("import.columns.answer")];
  const heads = words.map((word) => made("th", { scope: "col", role: "columnheader" }, word));
  const table = byId("import-table");
  table.className = `cards ${kind === RECORDS ? "sheetrows" : "actrows"}`;
  table.tHead.replaceChildren(made("tr", { role: "row" }, ...heads));
  table.tBodies[0].replaceChildren();
  label(table, words);
}

export function start() {
  takeKind(RECORDS);
  const filters = Object.keys(TAKES).map((name) => made("option", { value: name }, t(`import.filters.${name}`)));
  byId("import-filter").append(...filters);
  byId("import-filter").addEventListener("change", () => {
    shown = SHOWN;
    draw();
  });
  byId("import-more").addEventListener("click", () => {
    shown += SHOWN;
    draw();
  });
}

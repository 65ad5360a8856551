// What all views need of the page: elements, what an answer says, tables. Data gets into the page as text alone.
import { visible } from "./plain/marks.js";
import { explained, isOfOffice } from "./plain/outcomes.js";
import { all, t } from "./texts.js";

export const byId = (id) => document.getElementById(id);

/** A day in a text, and the elements in which there is no room for another element. */
const DAY = /(\d{4}-\d{2}-\d{2})/;
const BARE = ["option", "title", "style"];

/** A text as nodes: each day in it is an element of its own, which no line breaks (office.css). */
function whole(text) {
  if (typeof text !== "string" || !DAY.test(text)) return [text];
  const day = (words) => Object.assign(document.createElement("span"), { className: "day", textContent: words });
  return text.split(DAY).map((words, at) => (at % 2 ? day(words) : words)).filter((it) => it !== "");
}

/** An element with these attributes, and these texts and elements in it. */
export function made(tag, attributes = {}, ...children) {
  const node = document.createElement(tag);
  for (const [name, value] of Object.entries(attributes)) node.setAttribute(name, value);
  node.append(...(BARE.includes(tag) ? children : children.flatMap(whole)));
  return node;
}

export const link = (href, text) => made("a", { href }, String(text));
export const paragraph = (text, kind = "") => made("p", kind ? { class: kind } : {}, text);

/** A number as people of the page's language write it. */
export const grouped = (number) => number.toLocaleString(all().lang);

/** A text that has a form for one and a form for many; the count is one of its values. */
export function plural(key, count, values = {}) {
  return t(`${key}.${count === 1 ? "one" : "many"}`, { count: grouped(count), ...values });
}

/** A number of bytes, in words. */
export const inBytes = (count) => plural("page.bytes", count);

const UNITS = ["B", "kB", "MB", "GB", "TB"];

/** A number of bytes in short, as 30 MB. */
export function inShort(count) {
  let [size, unit] = [count, 0];
  for (; size >= 1000 && unit < UNITS.length - 1; unit += 1) size /= 1000;
  const digits = { maximumFractionDigits: unit && size < 10 ? 1 : 0 };
  return `${size.toLocaleString(all().lang, digits)} ${UNITS[unit]}`;
}

/** A text as nodes, with an element at each of its places that has one, and a text at the others. */
export function sentence(key, parts) {
  return t(key).split(/(\{\w+\})/).map((piece) => {
    const name = /^\{(\w+)\}$/.exec(piece)?.[1];
    return name && name in parts ? parts[name] : piece;
  });
}

/** A text as nodes: no line breaks a code in it, which only its hyphens would allow. */
export function unbroken(text, code) {
  if (!code?.includes("-")) return [text];
  const inOne = () => made("span", { class: "day" }, code);
  return text.split(code).flatMap((piece, at) => (at ? [inOne(), piece] : [piece])).filter((it) => it !== "");
}

/** Puts the words into all elements that name them by `data-text`. */
export function translate(root) {
  for (const node of root.querySelectorAll("[data-text]")) node.replaceChildren(...whole(t(node.dataset.text)));
  for (const node of root.querySelectorAll("[data-label]")) node.setAttribute("aria-label", t(node.dataset.label));
}

// ---- what an answer says

const SHORT = 400;

/** An answer's status and its text; a page of HTML, which a proxy writes about itself, has nothing to read for anybody. */
function wordsOf(answer) {
  const text = answer.type.startsWith("text/html") ? "" : visible(answer.text.trim());
  return `${answer.status} ${text}`.trim();
}

/** The answer itself. */
function ownWords(answer) {
  if (answer.status === 0) return paragraph(`${t("said.office")} ${t("said.nothing")}`, "words");
  const who = t(isOfOffice(all(), answer) ? "said.office" : "said.proxy");
  const words = wordsOf(answer);
  if (words.length <= SHORT) return made("p", { class: "words" }, `${who} `, made("code", {}, words));
  const whole = made("details", {}, made("summary", {}, t("said.whole", { count: answer.bytes.length })), made("pre", {}, words));
  return made("div", { class: "words" }, made("p", {}, `${who} `, made("code", {}, `${words.slice(0, SHORT)} ...`)), whole);
}

/** The answer itself, behind a summary, since the page has said all of it in words. */
export const details = (answer) => made("details", { class: "raw" }, made("summary", {}, t("said.details")), ownWords(answer));

const ended = (text) => (/[.?!]$/.test(text) ? text : `${text}.`);

function explanation(row) {
  const lines = [];
  if (row.key) lines.push(made("h3", {}, t(row.key, row)));
  lines.push(paragraph(ended(t("said.meaning", row).replace(/\.$/, ""))));
  if (row.do) lines.push(paragraph(ended(t("said.do", row).replace(/\.$/, ""))));
  return lines;
}

/** What an answer means by docs/ERRORS.md, and the answer itself behind a summary: a failure begins with words. */
export function told(answer) {
  const rows = explained(all(), answer);
  const isFailure = answer.status === 0 || answer.status >= 400;
  if (!isFailure) return [details(answer), ...rows.flatMap(explanation)];
  return [...(rows.length ? rows.flatMap(explanation) : [paragraph(t("said.strange"))]), details(answer)];
}

const LONG = "table, ul, dl.totals, details, button";
const isLong = (node) => node.nodeType === Node.ELEMENT_NODE && (node.matches(LONG) || node.querySelector(LONG) !== null);

/** A place for sentences that a screen reader reports, with room after them for tables and lists, which it does not. */
export const sentencesOf = () => made("div", { role: "status" });

/** Puts nodes into a place: of one with such sentences the first nodes, up to a table, a list or a button, into these. */
export function fill(place, ...nodes) {
  const live = place.querySelector(":scope > [role=status]");
  if (!live) return place.replaceChildren(...nodes);
  const at = nodes.findIndex(isLong);
  const end = at < 0 ? nodes.length : at;
  live.replaceChildren(...nodes.slice(0, end));
  for (const it of [...place.childNodes]) if (it !== live) it.remove();
  place.append(...nodes.slice(end));
  return undefined;
}

/** Shows an outcome at its place: `done`, `wrong` or `unknown`. A screen reader tells it, since the place is live. */
export function say(place, kind, ...nodes) {
  place.className = `outcome ${kind}`;
  fill(place, ...nodes);
  // below a form it may be out of sight
  if (kind !== "waiting" && place.closest(".step, .inset")) place.scrollIntoView({ block: "nearest" });
}

export function quiet(place) {
  place.className = "outcome";
  fill(place);
}

/** Says that the office is being asked. */
export const asking = (place, text = t("page.asking")) => say(place, "waiting", paragraph(text));

/** Shows that an answer is a failure. */
export const failed = (place, answer, ...more) => say(place, "wrong", ...told(answer), ...more);

// ---- tables and lists

/** The words of the columns, as CSS shows them before the cells on a narrow page; a long list has room for them. */
export function label(table, words) {
  words.forEach((word, at) => table.style.setProperty(`--word-${at + 1}`, JSON.stringify(word)));
}

const row = (...cells) => made("tr", { role: "row" }, ...cells);
const heading = (word) => made("th", { scope: "col", role: "columnheader" }, word);
/** A code is not broken at its hyphens. */
const CODE = /^[A-Za-z0-9]+(-[A-Za-z0-9]+)+$/;
const inCell = (content) => (CODE.test(content) && content.length <= 16 && !DAY.test(content) ? made("span", { class: "day" }, content) : content);
const cell = (content, at) => cellOf(inCell(content), at);
const cellOf = (content, at) => (at === 0 ? made("th", { scope: "row", role: "rowheader" }, content) : made("td", { role: "cell" }, content));

/**
 * A table with a caption and a heading a column; each row is a list of cells, the first of which names the row. The roles stand
 * there for browsers that forget what a table is once its rows are laid out as cards.
 */
export function tableOf(caption, words, rows, kind = "") {
  const head = made("thead", { role: "rowgroup" }, row(...words.map(heading)));
  const body = made("tbody", { role: "rowgroup" }, ...rows.map((cells) => row(...cells.map(cell))));
  const table = made("table", { class: `cards ${kind}`, role: "table" }, made("caption", {}, caption), head, body);
  label(table, words);
  return table;
}

/** A list of facts, each with its name. */
export function factsOf(facts) {
  return made("dl", { class: "facts" }, ...facts.map(([name, value]) => made("div", {}, made("dt", {}, name), made("dd", {}, value))));
}

/** Gives bytes to the browser to save as a file. */
export function save(name, bytes, type) {
  const url = URL.createObjectURL(new Blob([bytes], { type }));
  const anchor = made("a", { href: url, download: name });
  document.body.append(anchor);
  anchor.click();
  anchor.remove();
  setTimeout(() => URL.revokeObjectURL(url), 10000);
}

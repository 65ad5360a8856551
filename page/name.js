// The name and the colour of this office, as the administrator set them: on every view, in the title and on paper.
import { get } from "./ask.js";
import { byId, made } from "./page.js";
import { isText } from "./plain/forms.js";
import { visible } from "./plain/marks.js";
import { jsonOf } from "./plain/outcomes.js";
import { t } from "./texts.js";

const COLOUR = /^#[0-9a-f]{6}$/i;
/** An address of help, of a contact or of a statement: of the web, or of a mailbox. */
const ADDRESS = /^(https:\/\/|mailto:)[^\s]+$/;

let name = null;
/** The addresses that the administrator set, by what they are for. */
let addresses = {};
/** The rules of paper that have the words of this office; they are made anew before each printing. */
const paper = new CSSStyleSheet();

/** The name of the office: its own, or what every office is called. */
export const officeName = () => name ?? t("page.name");

/** The addresses of help, of a contact and of a statement on accessibility; undefined if the administrator set none. */
export const links = () => addresses;

/** The title of a view. */
export const titleOf = (view) => (name === null ? t("page.title", { view }) : t("page.titleOf", { view, office: name }));

/** A text as CSS has it. A name has no control characters, so only quotes and backslashes are to be marked. */
const inCss = (text) => `"${text.replace(/["\\]/g, "\\$&")}"`;

/** The number of a page, in words, as CSS counts pages. */
function pageWords() {
  const counter = { page: "counter(page)", pages: "counter(pages)" };
  return t("page.sheet").split(/\{(pages?)\}/).map((it, at) => (at % 2 ? counter[it] : inCss(it))).join(" ");
}

/** Writes the office, the view and the moment for paper: above the first page, and on each where the browser can. */
function writePaper() {
  const view = document.querySelector("main > section:not([hidden]) > h1")?.textContent ?? "";
  const now = new Date();
  const moment = t("page.printed", { day: now.toLocaleDateString("sv-SE"), time: now.toTimeString().slice(0, 5) });
  byId("paper").replaceChildren(made("strong", {}, officeName()), made("span", {}, moment));
  const look = "font: 8pt system-ui, sans-serif; color: #333;";
  const box = (place, words) => `@${place} { content: ${words}; ${look} }`;
  const boxes = [["bottom-left", inCss(`${officeName()} · ${view}`)], ["bottom-right", pageWords()]];
  paper.replaceSync(`@page { ${boxes.map((it) => box(...it)).join(" ")} }`);
}

/** Reads the name, the colour and the addresses. Without them the office is called as every one, and has the colour of the page. */
export async function load() {
  const answer = await get(`name.json`);
  const set = answer.status === 200 ? jsonOf(answer) : undefined;
  if (typeof set?.name === "string" && isText(set.name)) name = visible(set.name);
  const given = ["help", "contact", "statement"].filter((it) => ADDRESS.test(set?.[it] ?? ""));
  addresses = Object.fromEntries(given.map((it) => [it, set[it]]));
  if (COLOUR.test(set?.colour ?? "")) {
    document.documentElement.style.setProperty("--office", set.colour);
    document.body.classList.add("coloured");
  }
}

/** Shows the name at the head of the page, and has it printed. */
export function start() {
  byId("office-name").textContent = officeName();
  document.adoptedStyleSheets = [...document.adoptedStyleSheets, paper];
  addEventListener("beforeprint", writePaper);
}

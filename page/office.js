// The page: it reads its words, starts its views, and shows the one that the address names, as #record?number=8.
import * as warning from "./clock_warning.js";
import { field, renewDays } from "./fields.js";
import * as officeName from "./name.js";
import * as offers from "./offers.js";
import * as foot from "./foot.js";
import { nameForms } from "./form_names.js";
import { byId, made, translate } from "./page.js";
import * as paper from "./paper.js";
import * as refs from "./refs.js";
import * as rights from "./rights.js";
import { all, load, t } from "./texts.js";
import * as accessibility from "./views/accessibility.js";
import * as catalogue from "./views/catalogue.js";
import * as certificate from "./views/certificate.js";
import * as due from "./views/due.js";
import * as fault from "./views/fault.js";
import * as file from "./views/file.js";
import * as holds from "./views/holds.js";
import * as sheet from "./views/import.js";
import * as outlook from "./views/outlook.js";
import * as overdue from "./views/overdue.js";
import * as plan from "./views/plan.js";
import * as record from "./views/record.js";
import * as run from "./views/run.js";
import * as todo from "./views/todo.js";

/** The views, in the order of the navigation. */
const VIEWS = {
  todo,
  due,
  overdue,
  outlook,
  record,
  file,
  import: sheet,
  plan,
  run,
  certificate,
  holds,
  catalogue,
  fault,
  accessibility,
};

/** The views that are reached from others, and not from the navigation. */
const APART = ["fault", "accessibility"];

/** The view and the words that an address names; what is to do, where it names none. */
function named(hash) {
  const [name, words] = hash.replace(/^#/, "").split("?");
  return [Object.hasOwn(VIEWS, name) ? name : "todo", new URLSearchParams(words)];
}

/** What is said of days is said anew: the day may be another one by now. */
function renew() {
  renewDays();
  warning.tellClocks();
  rights.tellRights();
}

/** The same on a page that somebody comes back to; a list of today may be that of an earlier day. */
function comeBack() {
  renew();
  const [name] = named(location.hash);
  VIEWS[name].renew?.();
}

/** The view that is seen. */
let seen = "";

function show(focus) {
  const [name, words] = named(location.hash);
  const before = seen;
  seen = name;
  for (const other of Object.keys(VIEWS)) byId(other).hidden = other !== name;
  for (const link of document.querySelectorAll("nav a")) {
    if (link.hash === `#${name}`) link.setAttribute("aria-current", "page");
    else link.removeAttribute("aria-current");
  }
  renew();
  document.title = officeName.titleOf(t(`${name}.title`));
  VIEWS[name].show(words);
  if (before && before !== name) setTimeout(() => VIEWS[before].left?.());
  if (!focus) return;
  scrollTo(0, 0);
  byId(name).querySelector("h1").focus({ preventScroll: true });
}

/** The link over the heading goes to the view without changing the address. */
function skip(event) {
  event.preventDefault();
  byId("main").focus();
}

/** The links to the views: the faults are reached from the view Run, and what is said of accessibility from the foot. */
function addLinks() {
  const names = Object.keys(VIEWS).filter((name) => !APART.includes(name));
  const links = names.map((name) => made("a", { href: `#${name}`, "data-text": `${name}.title` }));
  byId("views").append(...links.map((link) => made("li", {}, link)));
}

async function begin() {
  await Promise.all([load(navigator.languages), officeName.load(), rights.load()]);
  document.documentElement.lang = all().lang;
  rights.tellJournal();
  rights.tellName();
  for (const place of document.querySelectorAll("[data-field]")) field(place);
  addLinks();
  translate(document);
  // the views come first, so that a list is whole before its links are left out
  for (const view of Object.values(VIEWS)) view.start();
  nameForms();
  warning.start();
  officeName.start();
  foot.start();
  paper.start();
  offers.start();
  refs.start();
  byId("skip").addEventListener("click", skip);
  addEventListener("hashchange", () => show(true));
  addEventListener("focus", comeBack);
  byId("loading").remove();
  document.body.classList.add("ready");
  show(false);
}

begin();

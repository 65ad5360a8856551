// The catalogue: records and aggregations, searched as one types; classes, schedules, holds and runs as lists.
import { aboutIt, countOf, doneSince, lastAnswer, makeReady, part, records, refresh } from "../catalogue.js";
import { serverNow } from "../clock.js";
import { asking, byId, failed, grouped, link, made, paragraph, plural, quiet, say } from "../page.js";
import { isDay, today } from "../plain/forms.js";
import { NO_DUE } from "../plain/finding.js";
import { visible } from "../plain/marks.js";
import { isLimited, mayRead } from "../rights.js";
import { t } from "../texts.js";
import { FILTERS, FIRST, FoundAggregations, FoundRecords, MORE, MOST, fillChoices, saveFound } from "./catalogue_found.js";
import { addressOf, listOf, scheduleWords } from "./catalogue_tables.js";
import { treeList } from "./catalogue_tree.js";
import { HistoryPart } from "./history.js";
import { MarkedBar } from "./marked.js";
import { addLine, tellLine } from "./panel_fold.js";

const PARTS = ["records", "aggregations", "classes", "schedules", "holds", "runs"];
const ALL_FILTERS = [...new Set(Object.values(FILTERS).flat())];

/** What the address asks for: a part, a code in it, words, filters, an aggregation and an order; an empty text asks for nothing. */
const NOTHING = { code: "", text: "", aggregation: "", ...Object.fromEntries(ALL_FILTERS.map((name) => [name, ""])), sort: "", isDown: false };
let asked = { part: "records", ...NOTHING };
let turn = 0;

const select = (name) => byId(`catalogue-${name}`);
/** So many milliseconds after the last key the address has what is asked: a browser slows a page down that changes it at each key. */
const STILL = 250;
let later = 0;
let soon = 0;

const FOUND = { records: new FoundRecords(() => tellMarks()), aggregations: new FoundAggregations(() => tellMarks()) };
const BARS = {};
/** The history of the aggregation whose records are shown, or of the class or schedule that is. */
let past = null;

/** What is searched in the part that is shown, or undefined. */
const foundOf = () => FOUND[asked.part];

function keepAddress() {
  clearTimeout(later);
  later = setTimeout(() => {
    // another view may have been opened meanwhile
    if (location.hash.startsWith("#catalogue")) history.replaceState(null, "", addressOf(asked));
  }, STILL);
}

// ---- what is said of the catalogue

/** A moment by this browser's clock, as 2026-11-26 23:45. */
function clockOf(moment) {
  const at = new Date(moment);
  return `${today(at)} ${at.toTimeString().slice(0, 5)}`;
}

/** Of which moment the catalogue is, and how old that is by the server's clock, which the moment is of too. */
export function momentWords() {
  const { moment } = aboutIt();
  const minutes = Math.max(0, Math.round((serverNow() - Date.parse(moment)) / 60000));
  const hours = Math.round(minutes / 60);
  const age = minutes < 120 ? plural("catalogue.minutes", minutes) : t("catalogue.hours", { count: hours });
  return made("time", { datetime: moment }, t("catalogue.moment", { moment: clockOf(moment), age }));
}

function tellMoment() {
  const words = [t("catalogue.day", { day: aboutIt().day })];
  if (doneSince()) words.push(plural("catalogue.since", doneSince()));
  if (isLimited("catalogue")) words.push(t("catalogue.own"));
  byId("catalogue-moment").replaceChildren(momentWords(), ` ${words.join(" ")}`);
}

async function tellParts() {
  const counts = new Map(await Promise.all(PARTS.map(async (name) => [name, await countOf(name)])));
  const links = PARTS.filter((name) => counts.get(name) !== undefined).map((name) => {
    const words = t("catalogue.choice", { part: t(`catalogue.parts.${name}`), count: grouped(counts.get(name)) });
    const it = link(`#catalogue?part=${name}`, words);
    if (name === asked.part) it.setAttribute("aria-current", "true");
    return made("li", {}, it);
  });
  byId("catalogue-parts").replaceChildren(...links);
}

/** Shows the filters of the part that is asked for, with their choices. */
async function tellFilters() {
  const names = FILTERS[asked.part] ?? [];
  for (const name of ALL_FILTERS) select(`${name}-field`).hidden = !names.includes(name);
  const isBy = asked.due !== "" && asked.due !== NO_DUE;
  select("due-day").value = isBy ? asked.due : "";
  tellDueDay(isBy);
  for (const name of names) {
    // the years are of the details, which are read after what is seen first
    if (name === "year" && !asked.year) select(name).value = "";
    else await fillChoices(name, select(name), name === "due" && isBy ? "by" : asked[name]);
  }
}

const tellYears = () => (FILTERS[asked.part]?.includes("year") ? fillChoices("year", select("year"), asked.year) : null);

/** The day by which something is due is asked for only where that is chosen. */
const tellDueDay = (isBy) => (select("due-day-field").hidden = !isBy || asked.part !== "records");

// ---- what is found

/** Says how many rows were found and are shown, and offers the others. */
function tellCounts() {
  const found = foundOf();
  const [count, shown] = [found.found.length, found.shown];
  byId("catalogue-count").textContent = t("catalogue.found", { count: grouped(count), all: grouped(found.total()), shown: grouped(shown) });
  const rest = Math.min(count, shown + MOST) - shown;
  byId("catalogue-more").hidden = byId("catalogue-whole").hidden = rest === 0;
  const isAll = shown + rest === count;
  byId("catalogue-whole").textContent = isAll ? plural("catalogue.showAll", rest) : t("catalogue.showSome", { count: grouped(rest) });
  byId("catalogue-mark").textContent = t("marked.allFound", { count: grouped(count) });
}

/** Says how many are marked, and what could be done with them. */
function tellMarks() {
  const found = foundOf();
  if (!found) return;
  const words = { count: grouped(found.marks.size), hidden: grouped(found.marks.size - found.marked) };
  byId("catalogue-marked").textContent = t("catalogue.marked", words);
  byId("catalogue-panel").hidden = found.marks.size === 0;
  byId("catalogue-panel").classList.toggle("marking", found.marks.size > 0);
  tellLine(byId("catalogue-panel"), words.count);
  BARS[asked.part]?.tell();
}

/** Says in which aggregation alone the records are looked for, and leads to all of them. */
function tellWithin(it) {
  if (!it) return past.tell(null);
  past.keep("aggregation", it.number);
  const words = t("catalogue.within", { number: it.number, ref: visible(it.ref), title: visible(it.title) });
  select("within").replaceChildren(paragraph(words), link("#catalogue?part=records", t("catalogue.everywhere")));
}

function sortBy(column) {
  asked.isDown = (asked.sort || "number") === column && !asked.isDown;
  asked.sort = column;
  keepAddress();
  return draw();
}

/** The table of what is found, with its first rows. */
function tableOf(found) {
  const it = found.tableFor(asked, sortBy);
  it.show(found.found, FIRST);
  return it.table;
}

/** A catalogue that an older program made has no details: what asks for them finds nothing, and that is said. */
function tellNoDetails() {
  FOUND.records.found = [];
  say(byId("catalogue-outcome"), "unknown", paragraph(t("catalogue.noDetails")));
  return [];
}

async function tellRecords() {
  const found = FOUND.records;
  if (!(await found.find(asked))) return (await records()) ? tellNoDetails : null;
  return () => {
    tellWithin(found.within(asked));
    return found.found.length ? [tableOf(found)] : [];
  };
}

/** Whether aggregations are shown as a tree: while nothing is asked of them. */
const isTree = () => asked.part === "aggregations" && !asked.text && !asked.state && !asked.class && !asked.sort;

async function tellAggregations() {
  const found = FOUND.aggregations;
  if (!(await found.find(asked))) return null;
  return () => {
    if (isTree()) return [treeList(found.order, found.marks)];
    return found.found.length ? [tableOf(found)] : [];
  };
}

/** What one class or schedule is, with what was done with it, and what leads to its records and to all others. */
const ONE = {
  classes: { kind: "class", words: (it) => visible(it.title) },
  schedules: { kind: "schedule", words: scheduleWords },
};

/** Whether one of these is asked for alone. */
const isOne = () => asked.part in ONE && asked.code !== "";

function tellOne(it) {
  if (!it) return past.tell(null);
  const { kind, words } = ONE[asked.part];
  past.keep(kind, it.code);
  const records = link(addressOf({ part: "records", [kind]: it.code }), t("catalogue.one.records"));
  const all = link(addressOf({ part: asked.part }), t(`catalogue.one.${asked.part}`));
  const told = made("h2", {}, t(`catalogue.one.${kind}`, { code: it.code, words: words(it) }));
  return select("within").replaceChildren(told, made("p", { class: "links-to" }, records, " ", all));
}

async function tellList() {
  const all = await part(asked.part);
  if (!all) return null;
  const rows = isOne() ? all.filter(({ code }) => code === asked.code) : all;
  return () => {
    if (isOne()) tellOne(rows[0]);
    byId("catalogue-count").textContent = rows.length ? "" : t("catalogue.none");
    return rows.length ? [listOf(asked.part, rows)] : [];
  };
}

const TELLERS = { records: tellRecords, aggregations: tellAggregations };

function tellNone() {
  byId("catalogue-there").hidden = true;
  const place = byId("catalogue-outcome");
  const answer = lastAnswer();
  if (!mayRead("catalogue")) return say(place, "unknown", paragraph(t("catalogue.unread")), paragraph(t("catalogue.unreadDo")));
  if (answer && ![200, 404].includes(answer.status)) return failed(place, answer);
  return say(place, "unknown", paragraph(t("catalogue.missing")), paragraph(t("catalogue.missingDo")));
}

/** Shows what can be done with what is found; a tree has it in itself. */
function tellTools() {
  const found = foundOf();
  byId("catalogue-tools").hidden = !found || (found.found.length === 0 && !isTree());
  for (const name of ["more", "whole"]) byId(`catalogue-${name}`).hidden = true;
  for (const [name, bar] of Object.entries(BARS)) bar.node.hidden = name !== asked.part;
  byId("catalogue-panel").hidden = true;
  if (!found) return;
  if (isTree()) {
    const counts = { count: grouped(found.order.roots.length), all: grouped(found.total()) };
    byId("catalogue-count").textContent = t("catalogue.roots", counts);
    byId("catalogue-mark").textContent = t("marked.allFound", { count: grouped(found.found.length) });
  } else tellCounts();
  tellMarks();
}

/** Puts the class, schedule and due day beside what is shown already, once they are read. */
async function fillDetails(mine) {
  if (asked.part !== "records" || !(await FOUND.records.readDetails()) || mine !== turn) return;
  const { shown } = FOUND.records;
  FOUND.records.table?.show(FOUND.records.found, Math.max(shown, FIRST));
}

/** Makes ready what a search for words goes through, so that the first key is answered at once. */
async function warm() {
  const index = await records();
  if (index) await makeReady(index);
}

/** Shows what is asked for now. What was asked for before and comes later is not shown any more. */
async function draw() {
  const mine = ++turn;
  const place = byId("catalogue-part");
  // a part that is there already comes at once, without a word of waiting
  const waiting = setTimeout(() => asking(byId("catalogue-outcome"), t("catalogue.reading")), 100);
  const tell = await (TELLERS[asked.part] ?? tellList)();
  clearTimeout(waiting);
  if (mine !== turn) return;
  place.removeAttribute("aria-busy");
  if (!tell) {
    tellNone();
    return;
  }
  quiet(byId("catalogue-outcome"));
  select("within").replaceChildren();
  if (asked.part !== "records" && !isOne()) past.tell(null);
  place.replaceChildren(...tell());
  tellTools();
  await fillDetails(mine);
  // once the rows were drawn
  if (asked.part === "records") setTimeout(warm, 20);
}

/**
 * Looks for what is written by now. If keys came faster than the page answered, those that wait are taken first: the
 * question of the last one alone is answered.
 */
function typed() {
  clearTimeout(soon);
  if (navigator.scheduling?.isInputPending?.()) soon = setTimeout(typed);
  else look();
}

/** Looks for what is written and chosen by now. */
function look() {
  asked.text = select("text").value.trim();
  for (const name of FILTERS[asked.part] ?? []) asked[name] = select(name).value;
  const isBy = asked.due === "by";
  tellDueDay(isBy);
  const day = select("due-day").value.trim();
  if (isBy) asked.due = isDay(day) ? day : "";
  keepAddress();
  return draw();
}

// ---- the view

/** The bar of a part. */
function barOf(name) {
  const found = FOUND[name];
  const kind = name === "records" ? "record" : "aggregation";
  const tell = (words) => say(byId("catalogue-answer"), "done", paragraph(words));
  return new MarkedBar({
    name: "catalogue",
    kind,
    items: () => found.items(),
    answer: () => byId("catalogue-answer"),
    save: async () => tell(await saveFound(found, found.marks.numbers)),
    after: async (numbers) => {
      for (const number of numbers) found.marks.set(number, false);
      found.table?.tick();
    },
  });
}

/** What is done with all that is found. */
function startTools() {
  const press = (name, work) => byId(`catalogue-${name}`).addEventListener("click", work);
  const marksAnew = (work) => () => {
    const found = foundOf();
    work(found);
    found.table?.tick();
    for (const box of byId("catalogue-part").querySelectorAll(".tree input")) box.checked = found.marks.has(Number(box.dataset.number));
  };
  press("mark", marksAnew((found) => found.marks.add(found.numbers())));
  press("unmark", marksAnew((found) => found.marks.clear()));
  press("csv", async () => say(byId("catalogue-answer"), "done", paragraph(await saveFound(foundOf(), foundOf().numbers()))));
  press("print", () => print());
  press("more", () => foundOf().table.fillTo(foundOf().shown + MORE, tellCounts));
  press("whole", () => foundOf().table.fillTo(foundOf().shown + MOST, tellCounts));
}

/** On paper is all that is found, up to as many rows as a browser prints; if there are more, that is said. */
function beforePaper() {
  if (byId("catalogue").hidden || !foundOf()?.table || isTree()) return;
  foundOf().table.finish(MOST);
  tellCounts();
  const { length } = foundOf().found;
  byId("catalogue-paper").textContent = length > MOST ? t("catalogue.paper", { most: grouped(MOST), count: grouped(length) }) : "";
}

export function start() {
  select("text").addEventListener("input", typed);
  select("due-day").addEventListener("input", typed);
  for (const name of ALL_FILTERS) select(name).addEventListener("change", look);
  byId("catalogue-search").addEventListener("submit", (event) => event.preventDefault());
  for (const name of Object.keys(FOUND)) {
    BARS[name] = barOf(name);
    byId("catalogue-panel").append(BARS[name].node);
  }
  addLine(byId("catalogue-panel"));
  startTools();
  past = new HistoryPart("catalogue-history");
  select("within").after(past.node);
  addEventListener("beforeprint", beforePaper);
}

/** What the words of the address ask for. */
function read(words) {
  const named = words.get("part");
  const sort = words.get("sort") ?? "";
  const given = Object.keys(NOTHING).filter((name) => words.has(name) && name !== "isDown");
  const isDown = sort.startsWith("-");
  return {
    ...NOTHING,
    ...Object.fromEntries(given.map((name) => [name, words.get(name)])),
    part: PARTS.includes(named) ? named : "records",
    sort: sort.replace(/^-/, ""),
    isDown,
  };
}

/** Shows the part that the address names, of the catalogue that is there by now. */
export async function show(words) {
  asked = read(words);
  const found = foundOf();
  // a column or a due day that there is not is not asked for
  if (found && asked.sort && !found.kind().sorted.includes(asked.sort)) asked.sort = "";
  if (asked.due && asked.due !== NO_DUE && !isDay(asked.due)) asked.due = "";
  select("text").value = asked.text;
  quiet(byId("catalogue-answer"));
  byId("catalogue-search").hidden = !found;
  byId("catalogue-part").setAttribute("aria-busy", "true");
  const moment = await refresh();
  if (moment === null) {
    byId("catalogue-part").removeAttribute("aria-busy");
    tellNone();
    return;
  }
  byId("catalogue-there").hidden = false;
  tellMoment();
  tellParts();
  tellFilters();
  await draw();
  await tellYears();
}

// To do: what waits for somebody, by the office as it is now and by its catalogue; an empty office says what to do first.
import { get } from "../ask.js";
import { aboutIt, isThere, part, refresh, tree } from "../catalogue.js";
import { asking, byId, failed, grouped, link, made, paragraph, plural, quiet, sentence } from "../page.js";
import { today } from "../plain/forms.js";
import { isMissing, jsonOf } from "../plain/outcomes.js";
import { dueTasks, ownTasks } from "../plain/todo.js";
import { mayDo, mayRead } from "../rights.js";
import { t } from "../texts.js";
import { momentWords } from "./catalogue.js";
import { USUAL_DAYS } from "./overdue.js";
import { catalogueTasks } from "./todo_waiting.js";

/** The choices of how long nothing was added to a file; the catalogue has those of half a year and more. */
const MONTHS = [6, 12, 24, 36, 60];
const USUAL_MONTHS = 12;

/** So many milliseconds after it was looked at, it is looked at again once somebody comes back. */
const LATER = 60000;

let asked = 0;
let looked = 0;

/**
 * @typedef {object} Task
 * @property {string} name its texts are below `todo.tasks`
 * @property {number} count how much there is to do
 * @property {Object<string, string | number>} [values] what its sentence says
 * @property {[string, string][]} [links] addresses, each with the name of its text
 * @property {Node[]} [more] what is behind a summary
 */

const dueLink = (day, words) => `#due?${new URLSearchParams({ day, ...words })}`;

/** What the lists of today leave to do. */
function officeTasks(day, due, overdue) {
  const { toConfirm, toReview, ready, heldBack } = dueTasks(due);
  const held = overdue.filter((row) => row.held !== null).length;
  const readyCount = ready.destroy + ready.transfer;
  const days = { day, count: USUAL_DAYS };
  return [
    { name: "overdue", count: overdue.length, values: { held: grouped(held), days: USUAL_DAYS }, links: [[`#overdue?${new URLSearchParams(days)}`, "overdue.title"]] },
    { name: "confirm", count: toConfirm, links: [[dueLink(day, { held: "_none", confirmed: "no" }), "due.title"]] },
    { name: "review", count: toReview, links: [[dueLink(day, { action: "review" }), "due.title"]] },
    { name: "ready", count: readyCount, values: { ...ready, held: grouped(heldBack) }, links: [["#run", "run.title"]] },
  ];
}

// ---- how it is shown

function taskNode({ name, count, values = {}, links = [], more = [] }) {
  const words = plural(`todo.tasks.${name}`, count, values);
  const to = links.map(([href, key]) => link(href, t("todo.goTo", { view: t(key) })));
  const details = more.length ? [made("details", { class: "listed" }, made("summary", {}, t("todo.list")), ...more)] : [];
  return made(
    "article",
    { class: "task", "data-task": name },
    made("h2", {}, made("strong", { class: "count" }, grouped(count)), " ", t(`todo.names.${name}`)),
    paragraph(words),
    made("p", { class: "links-to" }, ...to.flatMap((it) => [it, " "])),
    ...details,
  );
}

/** Shows what there is to do, and says of what else there is nothing. */
function draw(tasks) {
  const there = tasks.filter(({ count }) => count > 0);
  const { own, others } = ownTasks(there, mayDo);
  byId("todo-tasks").replaceChildren(...own.map(taskNode));
  const fold = (nodes) => made("details", { id: "todo-others" }, made("summary", {}, plural("todo.others", others.length)), made("div", { class: "tasks" }, ...nodes));
  const names = tasks.filter(({ count }) => !count).map(({ name }) => t(`todo.names.${name}`)).join(" · ");
  const nothing = own.length ? [] : [made("p", { class: "nothing" }, t(others.length ? "todo.nothingYours" : "todo.nothing"))];
  const none = names ? [paragraph(t("todo.none", { names }), "hint")] : [];
  const lacks = isThere() ? [] : [paragraph(t(mayRead("catalogue") ? "todo.noCatalogue" : "todo.noRight"), "hint")];
  byId("todo-none").replaceChildren(...nothing, ...(others.length ? [fold(others.map(taskNode))] : []), ...none, ...lacks);
}

function step(key, view) {
  return made("li", {}, ...sentence(`todo.first.${key}`, { view: link(`#${view}`, t(`${view}.title`)) }));
}

/** What to do first in an office that has no record yet. */
function drawEmpty() {
  const steps = [step("plan", "plan"), step("file", "file"), step("many", "import"), step("then", "due")];
  const title = made("h2", {}, t("todo.empty"));
  byId("todo-tasks").replaceChildren(made("article", { class: "task", "data-task": "first" }, title, made("ol", {}, ...steps)));
  byId("todo-none").replaceChildren();
}

/** Whether the office has no record at all: numbers begin at 1, and no record's number goes. */
async function isEmpty(due) {
  if (due.length || (isThere() && aboutIt().records > 0)) return false;
  return isMissing(await get("records/1"), "record");
}

/** Asks what is due and overdue today, reads what the catalogue has, and shows what is to do. */
async function look() {
  const mine = ++asked;
  looked = Date.now();
  const place = byId("todo-outcome");
  asking(place);
  const day = today();
  const answers = await Promise.all([get(`due/${day}`), get(`overdue/${day}/${USUAL_DAYS}`), refresh()]);
  if (mine !== asked) return;
  const [due, overdue] = answers.slice(0, 2).map((answer) => (answer.status === 200 ? jsonOf(answer) : undefined));
  const wrong = !Array.isArray(due) ? answers[0] : !Array.isArray(overdue) ? answers[1] : null;
  byId("todo-there").hidden = Boolean(wrong);
  if (wrong) return failed(place, wrong);
  const empty = await isEmpty(due);
  const months = Number(byId("todo-months").value);
  const waiting = await catalogueTasks({ todo: await part("todo"), runs: await part("runs"), holds: await part("holds"), tree: await tree() }, day, months);
  if (mine !== asked) return;
  quiet(place);
  const time = new Date().toTimeString().slice(0, 5);
  byId("todo-moment").replaceChildren(t("todo.readAt", { day, time }), ...(isThere() ? [` ${t("todo.catalogueAt")} `, momentWords()] : []));
  byId("todo-controls").hidden = empty;
  if (empty) drawEmpty();
  else draw([...waiting.first, ...officeTasks(day, due, overdue), ...waiting.then]);
}

// ---- the view

function addParts() {
  const option = (count) => made("option", { value: count }, plural("catalogue.units.months", count));
  const select = made("select", { id: "todo-months" }, ...MONTHS.map(option));
  select.value = String(USUAL_MONTHS);
  const button = (id, key) => made("button", { type: "button", id, class: "quiet" }, t(key));
  const words = made("label", { for: "todo-months" }, t("todo.months"));
  byId("todo-there").append(
    made("p", { id: "todo-moment", class: "hint" }),
    made("div", { id: "todo-tasks", class: "tasks" }),
    made("div", { id: "todo-none" }),
    made("div", { id: "todo-controls", class: "tools" }, words, select, button("todo-anew", "due.readAnew"), button("todo-print", "due.print")),
  );
}

export function start() {
  addParts();
  byId("todo-there").hidden = true;
  byId("todo-months").addEventListener("change", look);
  byId("todo-anew").addEventListener("click", look);
  byId("todo-print").addEventListener("click", () => print());
}

/** Shows what is to do now. */
export const show = () => look();

/** Looks again on a page that somebody comes back to after a while; what is unfolded stays so until then. */
export const renew = () => (Date.now() - looked > LATER ? look() : undefined);

// The outlook: what falls due in each year, or in each month of one, as a chart and a table that lead to the due list.
import { get } from "../ask.js";
import { asking, byId, failed, grouped, link, made, paragraph, quiet, say, tableOf } from "../page.js";
import { today } from "../plain/forms.js";
import { ACTIONS, STATES, byMonth, byYear, countOf, yearsOf } from "../plain/outlook.js";
import { jsonOf } from "../plain/outcomes.js";
import { t } from "../texts.js";
import { chartOf, sample } from "./outlook_chart.js";

const LAST_DAY = "2999-12-31";

/** The rows of the due list of the last day that there is; the year whose months are shown, or null for all years. */
const outlook = { rows: [], year: null };
let asked = 0;

// ---- the words of a period

/** The word below a bar, as short as may be. */
function label({ kind, year, month }) {
  if (kind === "month") return t(`outlook.months.${month}`);
  return kind === "year" ? String(year) : t(`outlook.${kind}Short`, { year });
}

function name(period) {
  const { kind, year, month } = period;
  if (kind === "month") return t("outlook.month", { month: t(`outlook.months.${month}`), year });
  return kind === "year" ? String(year) : t(`outlook.${kind}`, { year });
}

/** Due with what falls due up to the end of a period, the last of it first. */
function href({ to }, action = "") {
  const words = new URLSearchParams({ day: to, ...(action && { action }), sort: "-due" });
  return `#due?${words}`;
}

/** What is said of a bar, or of its part of one action. */
function words(period, action) {
  const { counts } = period;
  if (!action) return t("outlook.bar", { period: name(period), count: grouped(counts.total) });
  const { held, confirmed } = counts.by[action];
  const numbers = { count: grouped(countOf(counts, action)), held: grouped(held), confirmed: grouped(confirmed) };
  return t("outlook.part", { period: name(period), action: t(`actions.${action}`), ...numbers });
}

// ---- what is shown

function tellChoices() {
  const years = yearsOf(outlook.rows);
  // a year in which nothing falls due is a choice too, where it is asked for
  if (outlook.year !== null && !years.includes(outlook.year)) years.push(outlook.year);
  const options = years.map((year) => made("option", { value: year }, String(year)));
  const select = byId("outlook-year");
  select.replaceChildren(made("option", { value: "" }, t("outlook.allYears")), ...options);
  select.value = outlook.year === null ? "" : String(outlook.year);
}

function tellLegend() {
  const item = (action, state, word) => made("li", {}, sample(action, state), word);
  const actions = ACTIONS.map((action) => item(action, "confirmed", t(`actions.${action}`)));
  const states = STATES.map((state) => item(ACTIONS[0], state, t(`outlook.states.${state}`)));
  byId("outlook-legend").replaceChildren(...actions, made("li", { class: "gap", "aria-hidden": "true" }), ...states);
}

function periods() {
  if (outlook.year !== null) return byMonth(outlook.rows, outlook.year);
  return byYear(outlook.rows, Number(today().slice(0, 4)));
}

function tellChart(them) {
  const place = byId("outlook-chart");
  const width = Math.floor(place.clientWidth);
  const height = width < 500 ? 260 : 340;
  if (width) place.replaceChildren(chartOf(them, width, height, { label, words, href, told: grouped }));
}

/** A year leads to its months; many years together do not. */
function monthsLink({ kind, year }) {
  return kind === "year" ? link(`#outlook?year=${year}`, t("outlook.monthsOf", { year })) : "";
}

function tellTable(them, caption) {
  const { year } = outlook;
  const columns = ["period", "total", ...ACTIONS, "held", "confirmed", ...(year === null ? ["months"] : [])];
  const heads = columns.map((column) => t(`outlook.columns.${column}`));
  const rows = them.filter(({ counts }) => counts.total).map((period) => {
    const { counts } = period;
    const byAction = ACTIONS.map((action) => countOf(counts, action));
    const sums = [counts.total, ...byAction, counts.held, counts.confirmed].map(grouped);
    return [link(href(period), name(period)), ...sums, ...(year === null ? [monthsLink(period)] : [])];
  });
  byId("outlook-table").replaceChildren(tableOf(caption, heads, rows, "outlook"));
}

function draw() {
  const there = outlook.rows.length > 0;
  byId("outlook-there").hidden = !there;
  if (!there) return say(byId("outlook-outcome"), "done", paragraph(t("outlook.none")));
  const them = periods();
  const caption = outlook.year === null ? t("outlook.byYear") : t("outlook.byMonth", { year: outlook.year });
  quiet(byId("outlook-outcome"));
  tellChoices();
  byId("outlook-caption").textContent = caption;
  tellTable(them, caption);
  tellChart(them);
}

/** Asks what is due by the last day that there is, and shows it. */
async function open() {
  const mine = ++asked;
  const place = byId("outlook-outcome");
  asking(place);
  const answer = await get(`due/${LAST_DAY}`);
  if (mine !== asked) return;
  const rows = jsonOf(answer);
  if (answer.status !== 200 || !Array.isArray(rows)) {
    byId("outlook-there").hidden = true;
    failed(place, answer);
    return;
  }
  outlook.rows = rows;
  draw();
}

/** Shows another year of what was asked for already. */
function choose() {
  const { value } = byId("outlook-year");
  outlook.year = value === "" ? null : Number(value);
  history.replaceState(null, "", value === "" ? "#outlook" : `#outlook?year=${value}`);
  draw();
}

// ---- the view

export function start() {
  tellLegend();
  byId("outlook-year").addEventListener("change", choose);
  new ResizeObserver(() => {
    if (outlook.rows.length) tellChart(periods());
  }).observe(byId("outlook-chart"));
}

/** Shows the year that the address names, or all years. */
export function show(from) {
  const year = from.get("year") ?? "";
  outlook.year = /^[1-9]\d{0,3}$/.test(year) ? Number(year) : null;
  return open();
}

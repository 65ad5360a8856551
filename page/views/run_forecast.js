// What a run would do, before it is opened and before it is carried out: by class, with the list of its records.
import { getNewest } from "../ask.js";
import { isThere, part, refresh } from "../catalogue.js";
import { byId, grouped, link, made, paragraph, plural, sentencesOf, tableOf } from "../page.js";
import { FATES, runForecast } from "../plain/forecast.js";
import { isDay, today } from "../plain/forms.js";
import { visible } from "../plain/marks.js";
import { jsonOf } from "../plain/outcomes.js";
import { recordsOf } from "../records.js";
import { t } from "../texts.js";
import { forecastOf } from "./forecast.js";

/** So many rows of the list are shown, and so many received records are asked for. */
const MOST = 500;

/** The run that is known to be open, with its day: this page opened it, or the catalogue has it; else null. */
let open = null;
/** The greatest run of which this page knows that it is closed. */
let closed = 0;
let told = null;

/** The run that the catalogue has as open, unless this page has closed it since. */
async function openByCatalogue() {
  await refresh();
  const run = (await part("runs"))?.find((it) => !it.closed);
  return run && run.number > closed ? { number: run.number, day: run.day } : null;
}

/** The records that an archive has received: those that the catalogue lists, as the office reports each; null where one answer failed. */
async function received() {
  const its = (await part("todo"))?.[0]?.received ?? [];
  const records = await recordsOf(its, MOST);
  return records && { count: its.length, records: records.filter(({ status }) => status === "received") };
}

// ---- how it is shown

const word = (fate) => t(`forecast.run.fates.${fate}`);

function totalsOf(totals) {
  const sum = (fate) => made("div", {}, made("dt", {}, word(fate)), made("dd", {}, grouped(totals[fate])));
  return made("dl", { class: "totals", "aria-label": t("forecast.run.totals") }, ...FATES.map(sum));
}

function classesTable(classes) {
  const heads = [t("due.columns.class"), ...FATES.map(word)];
  const rows = classes.map(([code, counts]) => [code, ...FATES.map((fate) => grouped(counts[fate]))]);
  return tableOf(t("forecast.run.byClass"), heads, rows, "byclass");
}

function listOf(rows) {
  const names = ["record", "ref", "class", "schedule", "due", "held"];
  const heads = [...names.map((name) => t(`due.columns.${name}`)), t("forecast.run.fate")];
  const cells = (row) => [
    link(`#record?number=${row.record}`, row.record), visible(row.ref), row.class, row.schedule, row.due ?? "",
    row.held === null ? "" : link(`#holds?code=${row.held}`, row.held), word(row.fate),
  ];
  const left = rows.length - MOST;
  const more = left > 0 ? [paragraph(plural("forecast.run.more", left), "hint")] : [];
  const table = tableOf(t("forecast.run.caption", { count: grouped(rows.length) }), heads, rows.slice(0, MOST).map(cells), "taken");
  return made("details", { class: "listed" }, made("summary", {}, t("todo.list")), table, ...more);
}

/** What is not certain of the forecast. */
function limits(count) {
  const lines = [t("forecast.run.isOfNow")];
  if (!isThere()) lines.push(t("forecast.run.noCatalogue"));
  if (count > MOST) lines.push(t("forecast.run.notAsked", { count: grouped(count - MOST) }));
  return paragraph(lines.join(" "), "hint");
}

/** That a run would dispose of nothing: the open one, one of today or one of another day. */
function noneWords(day) {
  if (open) return t("forecast.run.noneOpen");
  return day === today() ? t("forecast.run.none") : t("forecast.run.noneOf", { day });
}

/** Asks what a run would do, by the list of its day. */
async function make() {
  if (open === null) {
    const found = await openByCatalogue();
    // this page may have opened one meanwhile
    open ??= found;
  }
  const written = byId("run-open-day").value.trim();
  const day = open?.day ?? (isDay(written) ? written : today());
  const answer = await getNewest(`due/${day}`);
  const due = jsonOf(answer);
  const there = await received();
  if (answer.status !== 200 || !Array.isArray(due) || !there) return null;
  const { rows, totals, classes } = runForecast(due, there.records);
  const key = open ? "forecast.run.open" : "forecast.run.day";
  const head = made("p", {}, t(key, { day, number: open?.number ?? "" }));
  const seen = JSON.stringify([open?.number ?? null, day, rows.map((row) => [row.record, row.fate])]);
  if (!rows.length) return { seen, nodes: [head, paragraph(noneWords(day)), limits(there.count)] };
  const gone = totals.destroy + totals.end;
  const grave = gone ? [paragraph(plural("forecast.run.grave", gone), "grave")] : [];
  return { seen, nodes: [head, totalsOf(totals), ...grave, classesTable(classes), limits(there.count), listOf(rows)] };
}

// ---- what the view asks of it

/** Puts the forecast over the forms, and makes it anew for another day. */
export function start() {
  const place = made("div", { id: "run-forecast", class: "forecast" }, sentencesOf());
  document.querySelector("#run > .steps").before(place);
  told = forecastOf(byId("run-open"), place, make);
}

export const renew = () => told.renew();

/** Whether a run would do what is shown; if not, that is said, and what is shown is as it is now. */
export const isAsSeen = (outcome) => told.isAsSeen(outcome);

/** Notes that a run was opened, with its day. */
export function opened(number, day) {
  open = { number, day };
  return told.renew();
}

/** Notes that a run is carried out and closed, or is perhaps, and shows its result in the place of what it would do. */
export function ended(number = 0, result = []) {
  closed = Math.max(closed, number);
  open = null;
  return told.renew(result);
}

// The hold that the address names: its reason, who placed it, its targets, what it covers; and what lifting it would do.
import { getNewest } from "../ask.js";
import { details, part, refresh } from "../catalogue.js";
import { byId, factsOf, grouped, link, made, paragraph, plural, tableOf, unbroken } from "../page.js";
import { earliest, liftForecast } from "../plain/forecast.js";
import { isCode, isDay, today } from "../plain/forms.js";
import { visible } from "../plain/marks.js";
import { jsonOf } from "../plain/outcomes.js";
import { recordsOf } from "../records.js";
import { t } from "../texts.js";
import { forecastOf, placeIn } from "./forecast.js";
import { HistoryPart } from "./history.js";
import { countLine, saveButton, targetsList } from "./targets.js";

const LAST_DAY = "2999-12-31";
/** So many confirmations are looked at for the earliest day, and so many rows are listed. */
const MOST = 500;

let asked = 0;
let lifting = null;
let past = null;

async function holdOf(code) {
  await refresh();
  return (await part("holds"))?.find((it) => it.code === code) ?? null;
}

/** What is due by today and held by this hold alone or first, as a link to Due. */
const dueLink = (code) => link(`#due?${new URLSearchParams({ day: today(), held: code })}`, t("holds.heldDue"));

async function wordsOf(hold) {
  const { code, reason, placed, by, lifted, targets } = hold;
  const state = lifted === null ? t("catalogue.inForce") : t("holds.liftedOn", { day: lifted });
  const facts = { reason: visible(reason), placed, by: visible(by), lifted: state };
  const names = Object.entries(facts).map(([name, value]) => [t(`catalogue.columns.${name}`), value]);
  const heads = made("div", { class: "tools" }, countLine(targets), ...(targets.length ? [saveButton(hold)] : []));
  const list = targets.length ? [await targetsList(targets)] : [];
  return [factsOf(names), heads, ...list, made("p", {}, dueLink(code)), paragraph(t("holds.byCatalogue"), "hint")];
}

/** Shows the hold of this code over the forms, as the catalogue has it. */
export async function show(code) {
  const mine = ++asked;
  const place = byId("hold-told");
  const hold = await holdOf(code);
  const nodes = hold ? await wordsOf(hold) : [paragraph(t("holds.unseen")), made("p", {}, dueLink(code))];
  if (mine !== asked) return;
  place.replaceChildren(made("h2", { id: "hold-heading" }, t("holds.heading", { hold: code })), ...nodes);
  place.hidden = false;
  byId("hold-status").textContent = hold ? t("holds.isShown", { hold: code }) : t("holds.unseen");
  past.tell("hold", code);
}

/** Shows no hold. */
export function showNone() {
  asked += 1;
  byId("hold-told").hidden = true;
  byId("hold-status").textContent = "";
  past.tell(null);
}

// ---- what lifting it would do

function listOf(rows) {
  const names = ["record", "ref", "class", "schedule", "action", "due"];
  const cells = (row) => [link(`#record?number=${row.record}`, row.record), visible(row.ref), row.class, row.schedule, t(`actions.${row.action}`), row.due];
  const table = tableOf(t("forecast.lift.caption", { count: grouped(rows.length) }), names.map((name) => t(`due.columns.${name}`)), rows.slice(0, MOST).map(cells), "lifted");
  return made("details", { class: "listed" }, made("summary", {}, t("todo.list")), table);
}

/** Since when what would be destroyed is confirmed, by what the office reports of each record. */
async function sinceWords(confirmed) {
  const records = await recordsOf(confirmed.map(({ record }) => record), MOST);
  const since = earliest((records ?? []).map((it) => it.confirmed?.day).filter(Boolean));
  if (since === null) return "";
  return t(confirmed.length > MOST ? "forecast.lift.sinceSome" : "forecast.lift.since", { day: since, count: grouped(MOST) });
}

/** How many records the hold covers by the catalogue, those without a due day too. */
async function allWords(code) {
  const count = (await details())?.heldBy(code) ?? null;
  return count === null ? [] : [paragraph(plural("forecast.lift.all", count))];
}

/** Asks what the office names the hold for. */
async function make() {
  const code = byId("hold-lift-code").value.trim();
  if (!isCode(code)) return { seen: "", nodes: [] };
  const written = byId("hold-lift-day").value.trim();
  const day = isDay(written) ? written : today();
  const answer = await getNewest(`due/${LAST_DAY}`);
  const rows = jsonOf(answer);
  if (answer.status !== 200 || !Array.isArray(rows)) return null;
  const { covered, due, confirmed } = liftForecast(rows, code, day);
  const words = { hold: code, day, due: grouped(due.length) };
  const nodes = [...(await allWords(code)), made("p", {}, ...unbroken(plural("forecast.lift.covers", covered.length, words), code))];
  if (confirmed.length) {
    const words = plural("forecast.lift.confirmed", confirmed.length);
    nodes.push(paragraph(`${words} ${await sinceWords(confirmed)}`.trim(), "grave"), listOf(confirmed));
  } else nodes.push(paragraph(t("forecast.lift.none")));
  nodes.push(paragraph(t("forecast.lift.others"), "hint"));
  return { seen: JSON.stringify([code, covered.length, confirmed.map(({ record }) => record)]), nodes };
}

/** Puts the place of the hold over the forms, and that of the forecast into the form that lifts. */
export function start() {
  const place = made("article", { id: "hold-told", class: "sheet hold-told", "aria-labelledby": "hold-heading" });
  place.hidden = true;
  const status = made("p", { id: "hold-status", class: "inner", role: "status" });
  past = new HistoryPart("hold-history");
  document.querySelector("#holds > .steps").before(status, place, past.node);
  const form = byId("hold-lift");
  lifting = forecastOf(form, placeIn(form, "hold-lift-forecast"), make);
}

export const renewForecast = () => lifting.renew();

/** Whether lifting would do what is shown; if not, that is said, and what is shown is as it is now. */
export const isAsSeen = (outcome) => lifting.isAsSeen(outcome);

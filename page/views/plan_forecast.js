// What closing an aggregation and giving a class another schedule would do, before either is done.
import { getNewest } from "../ask.js";
import { aboutIt, aggregations, details, isNewer, part, records, refresh, tree } from "../catalogue.js";
import { clear } from "../fields.js";
import { byId, grouped, link, made, paragraph, plural, tableOf } from "../page.js";
import { positionOf, rowOf } from "../plain/catalogue.js";
import { closeForecast, ruleForecast } from "../plain/forecast.js";
import { isCode, isDay, isNumber, today } from "../plain/forms.js";
import { visible } from "../plain/marks.js";
import { jsonOf } from "../plain/outcomes.js";
import { recordsOf } from "../records.js";
import { all, t } from "../texts.js";
import { forecastOf, noForecast, placeIn, tickOf } from "./forecast.js";

const LAST_DAY = "2999-12-31";
/** So many records are asked for, and so many rows of a table are shown. */
const MOST = 300;
const SHOWN = 20;

const forecasts = {};
const nothing = { seen: "", nodes: [] };
const valueOf = (id) => byId(id).value.trim();
const dayOf = (id) => (isDay(valueOf(id)) ? valueOf(id) : today());

const noCatalogue = () => ({ seen: "", nodes: [paragraph(t("forecast.noCatalogue"), "hint")] });

const byCode = async (name) => new Map(((await part(name)) ?? []).map((it) => [it.code, it]));

// ---- a closing

/** The aggregations that are open in one, by the catalogue: they have to be closed first. */
const openIn = (order, number) => (order.within.get(number) ?? []).filter(({ closed }) => closed === null);

const nameOf = (it) => t("forecast.close.name", { number: it.number, ref: visible(it.ref), title: visible(it.title) });

/** Which aggregations have to be closed first, each with a link that writes it into the form. */
function openWords(children) {
  if (!children.length) return [];
  const list = children.slice(0, SHOWN).map((child) => made("li", {}, link(`#plan?close=${child.number}`, nameOf(child))));
  return [paragraph(plural("forecast.close.children", children.length), "grave"), made("ul", {}, ...list)];
}

/** The due days that follow, as a table, or that none does. */
function followTable(rows) {
  if (!rows.length) return paragraph(t("forecast.close.none"));
  const { schedule, due, action, records: count } = all().forecast.columns;
  const cells = rows.map((row) => [row.schedule, row.due, t(`actions.${row.action}`), grouped(row.count)]);
  return tableOf(t("forecast.close.follow"), [schedule, due, action, count], cells, "bydue");
}

/** What is in an aggregation itself, by the catalogue: the numbers of its records that are here. */
async function recordsIn(number) {
  const index = await records();
  return (index?.rows ?? []).filter((row) => row[3] === number && row[4] === "here").map(([it]) => it);
}

async function makeClosing() {
  const number = Number(valueOf("plan-close-aggregation"));
  if (!isNumber(String(number))) return nothing;
  if ((await refresh()) === null) return noCatalogue();
  const [index, order] = [await aggregations(), await tree()];
  const it = rowOf(index?.rows ?? [], number);
  if (!it) return { seen: "", nodes: [paragraph(t("forecast.close.unseen", { number }), "grave")] };
  const children = openIn(order, number);
  const numbers = await recordsIn(number);
  const nodes = [made("p", {}, made("strong", {}, nameOf(it)))];
  if (it.closed !== null) nodes.push(paragraph(t("forecast.close.closed", { day: it.closed }), "grave"));
  nodes.push(...openWords(children));
  const there = await recordsOf(numbers, MOST);
  if (there === null) return null;
  nodes.push(paragraph(plural("forecast.close.holds", numbers.length)));
  const follow = closeForecast(there, await byCode("schedules"), dayOf("plan-close-day"));
  if (numbers.length) nodes.push(followTable(follow));
  if (numbers.length > MOST) nodes.push(paragraph(t("forecast.some", { count: MOST }), "hint"));
  return { seen: JSON.stringify([it, children.length, numbers.length, follow]), nodes };
}

// ---- another schedule of a class

const momentOf = () => aboutIt().moment.slice(0, 16).replace("T", " ");

/** Of when it is that a class has its schedule: somebody else may have given it another one since. */
async function asOfWords({ code, schedule }) {
  return (await isNewer("classes", code)) ? [] : [t("forecast.rule.asOf", { class: code, schedule, moment: momentOf() })];
}

/** What this class and this schedule are, by the catalogue and by what was done since; or why nobody knows. */
async function ruleWritten(code, name) {
  if ((await refresh()) === null) return { unknown: t("forecast.noCatalogue") };
  const it = (await byCode("classes")).get(code);
  const rule = (await byCode("schedules")).get(name);
  const moment = momentOf();
  if (!rule) return { unknown: t("forecast.rule.newSchedule", { code: name, moment }) };
  return it ? { it, rule } : { unknown: t("forecast.rule.newClass", { code, moment }) };
}

function countsList(counts) {
  const kinds = ["moved", "same", "none", "unknown"].filter((kind) => counts[kind] > 0);
  return made("ul", {}, ...kinds.map((kind) => made("li", {}, plural(`forecast.rule.${kind}`, counts[kind]))));
}

function movesTable(moves) {
  const { now, then, records: count } = all().forecast.columns;
  const cells = moves.slice(0, SHOWN).map(([before, after, many]) => [before, after, grouped(many)]);
  const left = moves.length - SHOWN;
  const more = left > 0 ? [paragraph(plural("forecast.rule.more", left), "hint")] : [];
  return [tableOf(t("forecast.rule.moves"), [now, then, count], cells, "bydue"), ...more];
}

/** Which confirmations no longer count, behind a summary. */
function fallenList(fallen) {
  if (!fallen.length) return [];
  const names = ["record", "ref", "action", "due", "held"];
  const cells = (row) => [link(`#record?number=${row.record}`, row.record), visible(row.ref), t(`actions.${row.action}`), row.due, row.held ?? ""];
  const heads = names.map((name) => t(`due.columns.${name}`));
  const table = tableOf(t("forecast.rule.fallen", { count: grouped(fallen.length) }), heads, fallen.slice(0, MOST).map(cells), "fallen");
  return [made("details", { class: "listed" }, made("summary", {}, t("todo.list")), table)];
}

/**
 * When the periods of these rows' records begin: by the catalogue, as far as no act changes it; else by the office, of so
 * many. Null where an answer failed.
 */
async function startsOf(rows, trigger) {
  const [index, known] = trigger === "event" ? [null, null] : [await records(), await details()];
  const has = (number) => Boolean(known && index && known.has(positionOf(index.rows, number)));
  const ofCatalogue = (number) => ({ number, aggregation: rowOf(index.rows, number)[3], ...known.at(positionOf(index.rows, number)) });
  const numbers = rows.map(({ record }) => record);
  const asked = await recordsOf(numbers.filter((number) => !has(number)), MOST);
  return asked && [...numbers.filter(has).map(ofCatalogue), ...asked];
}

async function makeRule() {
  const codes = [valueOf("plan-rule-class"), valueOf("plan-rule-schedule")];
  if (!codes.every(isCode)) return nothing;
  const { it, rule, unknown } = await ruleWritten(...codes);
  if (unknown) return noForecast(byId("plan-rule"), unknown, codes);
  const answer = await getNewest(`due/${LAST_DAY}`);
  const list = jsonOf(answer);
  if (answer.status !== 200 || !Array.isArray(list)) return null;
  const rows = list.filter((row) => row.class === it.code && row.schedule === it.schedule);
  const found = await startsOf(rows, rule.trigger);
  if (found === null) return null;
  const numbers = new Set(found.map(({ number }) => number));
  const byNumber = new Map(((await aggregations())?.rows ?? []).map((one) => [one.number, one]));
  const { counts, moves, fallen } = ruleForecast(rows.filter(({ record }) => numbers.has(record)), found, rule, byNumber);
  const nodes = [paragraph(plural("forecast.rule.dues", rows.length, { class: it.code, schedule: it.schedule }))];
  if (rows.length) nodes.push(countsList(counts), ...(moves.length ? movesTable(moves) : []));
  const confirmed = rows.some((row) => row.confirmed);
  if (confirmed) nodes.push(paragraph(plural("forecast.rule.fall", fallen.length), fallen.length ? "grave" : ""), ...fallenList(fallen));
  if (rows.length > found.length) nodes.push(paragraph(t("forecast.some", { count: grouped(found.length) }), "hint"));
  nodes.push(paragraph([...(await asOfWords(it)), t("forecast.rule.limits")].join(" "), "hint"));
  if (counts.moved || counts.none || fallen.length) nodes.push(tickOf(byId("plan-rule"), "sure", "forecast.rule.sure"));
  return { seen: JSON.stringify([it, rule.code, rows.length, counts, fallen.map(({ record }) => record)]), nodes };
}

// ---- what the view asks of it

function watch(name, form, make) {
  forecasts[name] = forecastOf(byId(form), placeIn(byId(form), `${form}-forecast`), make);
}

export function start() {
  watch("close", "plan-close", makeClosing);
  watch("rule", "plan-rule", makeRule);
  byId("plan-close-sure").closest(".field").before(byId("plan-close-forecast"));
}

export const renew = (name) => forecasts[name].renew();

/** Before an act: what was shown of it, or null if it would do another thing by now, which is said at this place. */
const seenOf = (name) => async (act, place) => ((await forecasts[name].isAsSeen(place)) ? "" : null);

export const ofClosing = seenOf("close");
export const ofRule = seenOf("rule");

/** What a closed aggregation is called, in the answer; then the form is for another one. What keeps it open is said too. */
export async function closed(act, fate) {
  const it = rowOf((await aggregations())?.rows ?? [], act.aggregation);
  const place = byId("plan-close-outcome");
  if (it && fate === "refused") place.append(...openWords(openIn(await tree(), it.number)));
  if (fate !== "done") return;
  if (it) place.firstChild.after(paragraph(nameOf(it)));
  clear(byId("plan-close-aggregation"));
  forecasts.close.renew();
}

// One record, by its number: what is reported of it in sentences and in facts, its content to save, and what can be recorded of it.
import { get, getNewest } from "../ask.js";
import { schedule } from "../catalogue.js";
import { onNumber } from "../fields.js";
import {
  asking, byId, details, factsOf, failed, inBytes, link, made, paragraph, quiet, say, sentence,
} from "../page.js";
import { isNumber, today } from "../plain/forms.js";
import { visible } from "../plain/marks.js";
import { reasonsFor } from "../plain/no_due.js";
import { isMissing, jsonOf } from "../plain/outcomes.js";
import { t } from "../texts.js";
import * as acts from "./record_acts.js";
import { factsOf as catalogueFacts, neighboursOf, receiptOf } from "./record_catalogue.js";
import * as content from "./record_content.js";
import * as event from "./record_event.js";
import * as files from "./record_files.js";
import * as misfiled from "./record_misfiled.js";
import { HistoryPart } from "./history.js";

let shown = null;
let asked = 0;
let past = null;

const line = (key, parts) => made("p", {}, ...sentence(key, parts));
const certificateLink = (run) => link(`#certificate?number=${run}`, run);

function ofStatus(record) {
  const { status, ended } = record;
  return line(`record.status.${ended ? ended.outcome : status}`, ended ? { run: certificateLink(ended.run) } : {});
}

/** Why a record has no due day, by the schedule that a catalogue has of it, or null. */
function ofNoDue(record, rule) {
  const reasons = reasonsFor(record, rule).map((reason) => t(`record.noDue.${reason}`, record));
  if (reasons.length === 1) return [paragraph(`${t("record.noDue.is")} ${reasons[0]}`)];
  const list = made("ul", {}, ...reasons.map((reason) => made("li", {}, reason)));
  return [paragraph(t("record.noDue.several", record)), list];
}

/** The due day, or why there is none. */
function ofDue(record, rule) {
  if (record.due === null) return ofNoDue(record, rule);
  return [paragraph(t(record.status === "ended" ? "record.dueWas" : "record.due", record))];
}

/** The event with which a retention period may begin, whatever the trigger and the status are. */
const ofEvent = (record) => paragraph(t(record.event ? "event.recorded" : "event.none", record));

function ofHold(record) {
  if (record.held === null) return paragraph(t("record.free"));
  return line(record.status === "ended" ? "record.heldEnded" : "record.held", { hold: link(`#holds?code=${record.held}`, record.held) });
}

/** The last confirmation. Of a record that is here only the due list tells whether it counts. */
function ofConfirmation(record) {
  const { confirmed, due, status } = record;
  if (confirmed === null) return [paragraph(t("record.unconfirmed"))];
  const said = paragraph(t("record.confirmed", { ...confirmed, by: visible(confirmed.by), action: t(`actions.${confirmed.action}`) }));
  if (status !== "here") return [said];
  if (confirmed.due !== due) return [said, paragraph(t("record.confirmedOther"))];
  const day = due > today() ? due : today();
  return [said, line("record.confirmedAsk", { list: link(`#due?day=${day}`, t("record.dueList")) })];
}

function factsTold(record, more = {}) {
  const word = (name) => t(`record.facts.${name}`);
  const names = ["ref", "title", "originated", "added", "aggregation", "class", "schedule"];
  const plain = names.map((name) => [word(name), more[name] ?? visible(String(record[name]))]);
  const digest = [word("digest"), made("code", {}, record.digest)];
  return factsOf([...plain, [word("length"), more.length ?? inBytes(record.length)], digest]);
}

/** The schedule of a record, where a catalogue has it: it says why there is no due day, and what the rule is. */
const ruleOf = (record) => schedule(record.schedule);

/** Adds what the catalogue has of a record, and what its content is, once it is shown. */
async function tellMore(record, rule) {
  const parts = [catalogueFacts(record, rule), neighboursOf(record), receiptOf(record), files.offer(record)];
  const [facts, neighbours, receipt, its] = await Promise.all(parts);
  // another one is shown by now
  if (shown !== record) return;
  byId("record-facts").replaceChildren(factsTold(record, { ...facts, ...its.facts }), ...(neighbours ? [neighbours] : []));
  byId("record-words").append(...receipt, ...its.words);
}

function tell(record, rule) {
  shown = record;
  byId("record-heading").textContent = t("record.heading", { number: record.number, title: visible(record.title) });
  const words = [ofStatus(record), ...ofDue(record, rule), ofEvent(record), ofHold(record), ...ofConfirmation(record)];
  byId("record-words").replaceChildren(...words);
  byId("record-facts").replaceChildren(factsTold(record));
  content.offer(record);
  event.offer(record, rule);
  acts.offer(record);
  misfiled.offer(record);
  tellMore(record, rule);
  past.tell("record", record.number);
  byId("record-told").hidden = false;
}

/** Asks for a record, and shows it. */
async function open(number) {
  const mine = ++asked;
  const place = byId("record-outcome");
  byId("record-number").value = number;
  byId("record-told").hidden = true;
  asking(place);
  const answer = await get(`records/${number}`);
  if (mine !== asked) return;
  const record = jsonOf(answer);
  if (isMissing(answer, "record")) return say(place, "wrong", paragraph(t("record.missing", { number })), paragraph(t("record.missingDo")), details(answer));
  if (answer.status !== 200 || !record) return failed(place, answer);
  const rule = await ruleOf(record);
  if (mine !== asked) return;
  quiet(place);
  tell(record, rule);
}

/** Reads the record that is shown once more, in its place: what is said of its due day then, or null where it could not be read. */
async function readAnew() {
  const mine = ++asked;
  const answer = await getNewest(`records/${shown.number}`);
  const record = jsonOf(answer);
  const isRead = answer.status === 200 && record;
  const rule = isRead ? await ruleOf(record) : null;
  // another one is being shown by now
  if (mine !== asked) return [];
  if (!isRead) return null;
  tell(record, rule);
  return ofDue(record, rule);
}

export function start() {
  content.start();
  event.start(readAnew);
  acts.start(readAnew, () => shown);
  misfiled.start(readAnew);
  past = new HistoryPart("record-history");
  byId("record-told").append(past.node);
  onNumber("record", open);
}

/** Shows the record that the address names. */
export function show(words) {
  const number = words.get("number");
  if (number === null) return;
  if (isNumber(number)) return open(number);
  byId("record-told").hidden = true;
  say(byId("record-outcome"), "wrong", paragraph(t("fields.numberWrong")));
}

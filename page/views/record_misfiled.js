// A record that was filed wrongly: its content is filed again with what is corrected, and the next run destroys the wrong one.
import { get, getNewest } from "../ask.js";
import { isThere, numberOf, part, tree } from "../catalogue.js";
import { field, mark, onSubmit, untick } from "../fields.js";
import { asking, byId, failed, link, made, paragraph, quiet, say, sentence, told, translate } from "../page.js";
import { addRecord, confirm } from "../plain/acts.js";
import { classOf } from "../plain/catalogue.js";
import { digestOf } from "../plain/certificates.js";
import { base64 } from "../plain/filing.js";
import { visible } from "../plain/marks.js";
import { MISFILED, isForMistakes, misfiledRule, nextRef } from "../plain/misfiled.js";
import { fatesOf, jsonOf } from "../plain/outcomes.js";
import { forgetReason, reasonFields, senderOf } from "../reasons.js";
import { mayDo } from "../rights.js";
import { t } from "../texts.js";

const ID = "record-misfiled";
const KINDS = ["add-record", "set-record-schedule", "confirm"];
/** The kind of each field, by its name. */
const FIELDS = {
  ref: "newRef", title: "newTitle", originated: "newOriginated", aggregation: "newAggregation", class: "allClass", schedule: "allSchedule",
  mistake: "misfiledSchedule", by: "by", day: "day",
};
const OPTIONAL = ["class", "schedule"];
/** The refusal that says that something is there already. */
const EXISTS = 4;

/** The record that the form is for, as it was shown. */
let subject = null;

const input = (name) => /** @type {HTMLInputElement} */ (byId(`${ID}-${name}`));

// ---- the form

/** The class and the schedule of its own that a record has, as far as the catalogue knows those that it would have without. */
async function ownOf(record) {
  if (!isThere()) return {};
  const order = await tree();
  const it = order?.byNumber.get(record.aggregation);
  const code = it ? classOf(order, it) : record.class;
  const rule = (await part("classes"))?.find((one) => one.code === record.class)?.schedule ?? record.schedule;
  return { class: code === record.class ? "" : record.class, schedule: rule === record.schedule ? "" : record.schedule };
}

/** A ref for the right one: that of the wrong one with a number, which the catalogue does not have yet. */
async function freeRef(ref) {
  let found = nextRef(ref);
  while (isThere() && (await numberOf("records", found)) !== undefined) found = nextRef(found);
  return found;
}

async function fill(record) {
  const values = { ...record, ref: await freeRef(record.ref), mistake: MISFILED, class: "", schedule: "", ...(await ownOf(record)) };
  if (subject !== record) return;
  for (const name of Object.keys(FIELDS)) {
    if (["by", "day"].includes(name)) continue;
    input(name).value = String(values[name]);
    mark(input(name), "");
  }
}

/** Offers the form for a record that is here, to a name that may do all of it. */
export function offer(record) {
  const isSame = record.number === subject?.number;
  subject = record;
  byId(`${ID}-part`).hidden = record.status !== "here" || !KINDS.every(mayDo);
  byId(`${ID}-held`).textContent = record.held === null ? "" : t("misfiled.held", { hold: record.held });
  if (isSame) return;
  byId(`${ID}-part`).removeAttribute("open");
  quiet(byId(`${ID}-outcome`));
  fill(record);
}

// ---- what is sent

/** Whether the record is as it was shown; if not, that is said. */
async function isAsShown(record, place) {
  const answer = await getNewest(`records/${record.number}`);
  if (answer.status !== 200) failed(place, answer);
  else if (JSON.stringify(jsonOf(answer)) !== JSON.stringify(record)) say(place, "wrong", paragraph(t("changes.record")));
  else return true;
  return false;
}

/** The content of the record in base64, or null if it did not come whole, which is said. */
async function contentOf(record, place) {
  const answer = await get(`records/${record.number}/content`);
  const digest = answer.status === 200 ? await digestOf(answer.bytes) : undefined;
  if (answer.status !== 200) failed(place, answer);
  else if (digest !== null && digest !== record.digest) say(place, "wrong", paragraph(t("misfiled.differs")));
  else return base64(answer.bytes);
  return null;
}

/** Has the schedule for mistakes there: whether it is, and is one for mistakes; if not, that is said. */
async function hasSchedule(code, day, send, place) {
  const rule = (await part("schedules"))?.find((it) => it.code === code);
  if (rule && isForMistakes(rule)) return true;
  if (rule) {
    mark(input("mistake"), t("misfiled.otherRule", { code }));
    quiet(place);
    return false;
  }
  const answer = await send([misfiledRule(day, code)]);
  const { answers, end } = fatesOf(answer, 1);
  if (end === "answered" && (!answers[0].refused || answers[0].refused === EXISTS)) return true;
  failed(place, answer);
  return false;
}

/** Files the right one: its number, or null if it was not filed, which is said. */
async function fileAgain(act, send, place) {
  const answer = await send([act]);
  const { answers, end } = fatesOf(answer, 1);
  const [given] = answers;
  if (end === "answered" && given.number) return given.number;
  if (given?.refused === EXISTS) mark(input("ref"), t("misfiled.taken", { ref: visible(act.ref) }));
  if (end === "unknown") say(place, "unknown", ...told(answer), paragraph(t("misfiled.lost")));
  else failed(place, answer, paragraph(t("misfiled.nothing")));
  return null;
}

const recordLink = (number) => link(`#record?number=${number}`, number);
const line = (key, parts) => made("p", {}, ...sentence(key, parts));

/** Has the wrong one destroyed by the next run, and says what came of it. */
async function endWrong(record, { number, ref }, { code, day, by }, send, place) {
  const acts = [{ act: "set-record-schedule", day, record: record.number, schedule: code }, confirm({ record: record.number, action: "destroy" }, day, by)];
  const answer = await send(acts);
  const { refused, end } = fatesOf(answer, acts.length);
  const again = line("misfiled.again", { number: recordLink(number), ref: visible(ref) });
  if (end === "answered" && !refused.size) {
    const wrong = line("misfiled.ends", { number: String(record.number), code, run: link("#run", t("run.title")) });
    say(place, "done", again, wrong, ...told(answer));
    return true;
  }
  say(place, end === "unknown" ? "unknown" : "wrong", again, paragraph(t("misfiled.stays")), ...told(answer));
  return false;
}

async function ask(values, readAnew) {
  const record = subject;
  const place = byId(`${ID}-outcome`);
  const form = /** @type {HTMLFormElement} */ (byId(ID));
  const value = (name) => values[`${ID}-${name}`];
  const [day, code, by] = ["day", "mistake", "by"].map(value);
  asking(place);
  if (!(await isAsShown(record, place))) return;
  const content = await contentOf(record, place);
  const send = senderOf(form);
  if (content === null || !(await hasSchedule(code, day, send, place))) return;
  const [ref, title, originated, aggregation, own, schedule] = ["ref", "title", "originated", "aggregation", "class", "schedule"].map(value);
  const act = addRecord(day, { ref, title, originated, aggregation, class: own, schedule, content });
  const number = await fileAgain(act, send, place);
  if (number === null) return;
  const isDone = await endWrong(record, { number, ref }, { code, day, by }, send, place);
  if (isDone) {
    untick(form);
    forgetReason(form);
  }
  if (subject === record) await readAnew();
}

/** Adds the form, behind a summary. `readAnew` reads the record that is shown once more. */
export function start(readAnew) {
  const hint = (key) => made("p", { class: "hint", "data-text": key });
  const places = Object.entries(FIELDS).map(([name, kind]) => {
    const place = made("div", { "data-field": kind, id: `${ID}-${name}`, ...(OPTIONAL.includes(name) && { "data-optional": "" }) });
    field(place);
    return place;
  });
  const held = made("p", { id: `${ID}-held`, class: "wrong" });
  const button = made("button", { class: "grave", "data-text": "misfiled.submit" });
  const form = made("form", { id: ID, class: "deed" }, hint("misfiled.about"), hint("fields.persons"), held, ...places, ...reasonFields(ID, [...KINDS, "add-schedule"]), button);
  const summary = made("summary", {}, made("h3", { "data-text": "misfiled.title" }));
  const outcome = made("div", { id: `${ID}-outcome`, class: "outcome", role: "status" });
  const both = made("div", { class: "inset" }, made("details", { id: `${ID}-part`, class: "act" }, summary, form), outcome);
  translate(both);
  byId("record-acts").append(both);
  onSubmit(form, (values) => ask(values, readAnew));
}

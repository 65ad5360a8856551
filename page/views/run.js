// Runs: open one, carry it out, look for one by its number.
import { get, post } from "../ask.js";
import { onNumber, onSubmit, untick } from "../fields.js";
import { asking, byId, details, factsOf, failed, grouped, link, made, paragraph, quiet, say, told } from "../page.js";
import { openRun } from "../plain/acts.js";
import { read } from "../plain/certificates.js";
import { FATES } from "../plain/forecast.js";
import { isNumber } from "../plain/forms.js";
import { visible } from "../plain/marks.js";
import { fatesOf, isMissing, jsonOf } from "../plain/outcomes.js";
import { askReason, forgetReason, reasonOf, senderOf } from "../reasons.js";
import { t } from "../texts.js";
import { HistoryPart } from "./history.js";
import * as forecast from "./run_forecast.js";
import * as list from "./run_list.js";

let past = null;

const certificateLink = (number) => link(`#certificate?number=${number}`, t("run.certificate"));

/** Opens a run, and says its number, or why not, or that it is unknown. */
async function open(values) {
  const place = byId("run-open-outcome");
  const form = byId("run-open");
  asking(place);
  const answer = await senderOf(form)([openRun(values["run-open-day"], values["run-open-by"])]);
  const { answers, end } = fatesOf(answer, 1);
  const number = answers[0]?.number;
  if (number || end === "unknown") untick(form);
  if (end === "unknown") say(place, "unknown", ...told(answer), paragraph(t("run.lostOpen")));
  else if (number) {
    forgetReason(form);
    say(place, "done", paragraph(t("run.opened", { number })), ...told(answer));
    await Promise.all([forecast.opened(number, values["run-open-day"]), list.renew()]);
  } else failed(place, answer);
}

/** The outcomes of a certificate's entries, by what the forecast calls them. */
const OUTCOMES = { destroy: "destroyed", send: "sent", end: "transferred", skip: "skipped" };

/** What a closed run did, by its certificate: how many records of each fate there are; in words, and as its result. */
async function countsOf(number) {
  const answer = await get(`certificates/${number}`);
  if (answer.status !== 200) return { counts: [paragraph(t("run.countsUnread")), ...told(answer)], result: [] };
  const { entries } = read(answer.text);
  const countOf = (fate) => grouped(entries.filter(({ outcome }) => outcome === OUTCOMES[fate]).length);
  const counts = FATES.map((fate) => [t(`forecast.run.fates.${fate}`), countOf(fate)]);
  const none = entries.length ? [] : [paragraph(t("run.tookNone"))];
  return { counts: [factsOf(counts), ...none], result: [paragraph(t("forecast.run.did", { number })), tilesOf(counts), ...none.map((it) => it.cloneNode(true))] };
}

/** The counts of a certificate as the forecast had its own. */
function tilesOf(counts) {
  const tile = ([word, count]) => made("div", {}, made("dt", {}, word), made("dd", {}, count));
  return made("dl", { class: "totals", "aria-label": t("forecast.result") }, ...counts.map(tile));
}

/** Carries the open run out, if it would do what was shown of it. */
async function resume() {
  const place = byId("run-resume-outcome");
  const form = byId("run-resume");
  asking(place);
  // a tick is for what was shown when it was made
  if (!(await forecast.isAsSeen(place))) return untick(form);
  const answer = await post("run/resume", undefined, { reason: reasonOf(form, ["resume"]) });
  const body = jsonOf(answer);
  const isUndone = Boolean(body?.refused) || fatesOf(answer, 0).end === "undone";
  if (!isUndone) untick(form);
  if (body?.certificate) {
    forgetReason(form);
    const number = body.certificate;
    const { counts, result } = await countsOf(number);
    // that it is open is no longer so
    quiet(byId("run-open-outcome"));
    say(place, "done", paragraph(t("run.resumed", { number })), ...counts, paragraph(certificateLink(number)), ...told(answer));
    await Promise.all([forecast.ended(number, result), list.renew()]);
  } else {
    if (isUndone) failed(place, answer);
    else say(place, "unknown", ...told(answer), paragraph(t("run.lostResume")));
    await forecast.ended();
  }
}

/** Looks for a run's certificate. */
async function find(number) {
  const place = byId("run-outcome");
  byId("run-number").value = number;
  past.tell("run", number);
  asking(place);
  const answer = await get(`certificates/${number}`);
  if (isMissing(answer, "certificate")) say(place, "wrong", paragraph(t("run.notClosed", { number })), paragraph(t("run.notClosedDo")), details(answer));
  else if (answer.status !== 200) failed(place, answer);
  else {
    const certificate = read(answer.text);
    say(place, "done", paragraph(t("run.closed", { ...certificate, number, by: visible(certificate.by ?? "") })), paragraph(certificateLink(number)));
  }
}

export function start() {
  forecast.start();
  list.start();
  past = new HistoryPart("run-history");
  document.querySelector("#run > .steps").after(past.node);
  askReason(byId("run-open"), ["open-run"]);
  askReason(byId("run-resume"), ["resume"]);
  onSubmit(byId("run-open"), open);
  onSubmit(byId("run-resume"), resume);
  onNumber("run", find);
}

/** Shows the run that the address names. */
export function show(words) {
  forecast.renew();
  list.renew();
  const number = words.get("number");
  if (number === null) {
    past.tell(null);
    quiet(byId("run-outcome"));
  } else if (isNumber(number)) find(number);
  else say(byId("run-outcome"), "wrong", paragraph(t("fields.numberWrong")));
}

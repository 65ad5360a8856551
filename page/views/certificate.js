// A certificate, of the office or of a file: whether its sum agrees, what it tells, and its text.
import { get } from "../ask.js";
import { isThere, part } from "../catalogue.js";
import { onNumber, onSubmit } from "../fields.js";
import { asking, byId, details, factsOf, failed, grouped, link, made, paragraph, quiet, save, say, tableOf, told } from "../page.js";
import { judged, read, sameBytes, skippedAgain } from "../plain/certificates.js";
import { isNumber } from "../plain/forms.js";
import { visible } from "../plain/marks.js";
import { isMissing } from "../plain/outcomes.js";
import { all, t } from "../texts.js";
import { titleOf, titleSwitch } from "./titles.js";

let shown = null;
let asked = 0;

const code = (text) => made("code", {}, text);

function wrongLine(wrong) {
  if (wrong.line) return paragraph(t("certificate.badLine", wrong));
  return paragraph(t("certificate.badCount", wrong));
}

/** Says in words whether the sum agrees, and then whether the lines are a certificate's. */
function tellVerdict(seal, certificate) {
  const kind = { agrees: "done", differs: "wrong", noSum: "wrong", noCrypto: "unknown" }[seal.verdict];
  const form = certificate.wrong.length ? certificate.wrong.slice(0, 10).map(wrongLine) : [paragraph(t("certificate.wellFormed"))];
  const verdict = made("p", { class: "verdict" }, t(`certificate.${seal.verdict}`));
  say(byId("certificate-verdict"), kind === "done" && certificate.wrong.length ? "wrong" : kind, verdict, ...form);
  const sums = [["computed", seal.computed], ["written", seal.written]].filter(([, sum]) => sum);
  byId("certificate-sums").replaceChildren(factsOf(sums.map(([name, sum]) => [t(`certificate.${name}`), code(sum)])));
}

function tellFacts(certificate) {
  const facts = Object.entries(all().certificate.facts).filter(([name]) => certificate[name] !== undefined);
  byId("certificate-facts").replaceChildren(factsOf(facts.map(([name, word]) => [word, visible(certificate[name])])));
}

function entryCells(entry) {
  const hold = entry.hold === null ? "" : link(`#holds?code=${entry.hold}`, visible(entry.hold));
  const words = [entry.ref, entry.class, entry.schedule, entry.due].map(visible);
  return [link(`#record?number=${entry.record}`, entry.record), t(`outcomes.${entry.outcome}`), ...words, hold, visible(entry.by), entry.length, code(entry.digest)];
}

/** What is skipped as the run before skipped it is folded: at each run it is there again. */
function foldedOf(again, number) {
  if (!again.length) return [];
  const words = t("certificate.again", { count: grouped(again.length), number });
  const table = tableOf(words, Object.values(all().certificate.columns), again.map(entryCells), "entries");
  return [made("details", { class: "listed" }, made("summary", {}, words), table)];
}

function tellTables(certificate, before = null) {
  const { columns, aggregationColumns } = all().certificate;
  const { run, entries, aggregations } = certificate;
  const { fresh, again } = skippedAgain(entries, before?.entries ?? []);
  const tables = [tableOf(t("certificate.entries", { number: visible(run ?? "-"), count: entries.length }), Object.values(columns), fresh.map(entryCells), "entries")];
  tables.push(...foldedOf(again, before?.run));
  const spent = aggregations.map((it) => [it.number, visible(it.ref)]);
  if (spent.length) tables.push(tableOf(t("certificate.aggregations", { count: spent.length }), Object.values(aggregationColumns), spent, "spent"));
  byId("certificate-tables").replaceChildren(...tables);
}

let titles = null;

/** Puts the title of each record beside its ref in the entries, or takes it off. */
async function tellTitles() {
  const mine = asked;
  const title = await titleOf();
  titles.renew();
  if (mine !== asked) return;
  // what the run before skipped too has a table of its own
  for (const { cells } of document.querySelectorAll("#certificate-tables .entries tbody tr")) {
    const words = title?.(Number(cells[0].textContent));
    cells[2].querySelector(".of-ref")?.remove();
    if (words) cells[2].append(made("span", { class: "of-ref" }, visible(words)));
  }
}

/** Whether there is a certificate of a run: by the catalogue, or else by asking for it. */
async function isClosed(number) {
  const run = isThere() ? (await part("runs"))?.find((it) => it.number === number) : undefined;
  return run?.closed || (await get(`certificates/${number}`)).status === 200;
}

/** Links to the certificates of the runs before and after, where there are such. */
async function tellOthers(number) {
  const mine = asked;
  const to = (other, key) => link(`#certificate?number=${other}`, t(key, { number: other }));
  const before = number > 1 ? [to(number - 1, "certificate.before")] : [];
  const after = (await isClosed(number + 1)) ? [to(number + 1, "certificate.after")] : [];
  if (mine === asked) byId("certificate-others").replaceChildren(...before, ...after);
}

/** What the certificate of the run before says, where this one skipped something. */
async function beforeOf(certificate, number) {
  if (number < 2 || certificate.skipped === "0") return null;
  const answer = await get(`certificates/${number - 1}`);
  return answer.status === 200 ? read(answer.text) : null;
}

async function tell(heading, bytes, name) {
  const text = new TextDecoder().decode(bytes);
  const certificate = read(text);
  shown = { bytes, name };
  byId("certificate-heading").textContent = heading;
  tellVerdict(await judged(bytes), certificate);
  tellFacts(certificate);
  tellTables(certificate);
  byId("certificate-others").replaceChildren();
  const seen = visible(text);
  byId("certificate-text").textContent = seen;
  byId("certificate-marks").hidden = seen === text;
  byId("certificate-told").hidden = false;
  tellTitles();
  return certificate;
}

/** Asks for a certificate, and shows it. */
async function open(number) {
  const mine = ++asked;
  const place = byId("certificate-outcome");
  byId("certificate-number").value = number;
  byId("certificate-told").hidden = true;
  asking(place);
  const answer = await get(`certificates/${number}`);
  if (mine !== asked) return;
  if (isMissing(answer, "certificate")) return say(place, "wrong", paragraph(t("run.notClosed", { number })), paragraph(t("run.notClosedDo")), details(answer));
  if (answer.status !== 200) return failed(place, answer);
  quiet(place);
  const certificate = await tell(t("certificate.heading", { number }), answer.bytes, t("certificate.file", { number }));
  const before = await beforeOf(certificate, Number(number));
  if (mine !== asked) return;
  if (before) {
    tellTables(certificate, before);
    tellTitles();
  }
  await tellOthers(Number(number));
}

/** Says whether the bytes of a file are those of the office's certificate of that run. */
async function compare(bytes, run) {
  const verdict = byId("certificate-verdict");
  const answer = await get(`certificates/${run}`);
  if (answer.status === 200) {
    const same = sameBytes(bytes, answer.bytes);
    if (!same) verdict.className = "outcome wrong";
    verdict.append(paragraph(t(same ? "certificate.sameAsOffice" : "certificate.otherThanOffice", { number: run })));
  } else if (isMissing(answer, "certificate")) verdict.append(paragraph(t("certificate.noneAtOffice", { number: run })));
  else verdict.append(paragraph(t("certificate.notCompared")), ...told(answer));
}

/** Checks a certificate in a file. */
async function check() {
  const file = byId("certificate-file").files[0];
  const bytes = new Uint8Array(await file.arrayBuffer());
  quiet(byId("certificate-outcome"));
  const certificate = await tell(t("certificate.headingFile", { name: visible(file.name) }), bytes, file.name);
  if (isNumber(certificate.run ?? "")) await compare(bytes, certificate.run);
}

export function start() {
  byId("certificate-save").addEventListener("click", () => save(shown.name, shown.bytes, "text/plain"));
  byId("certificate-print").addEventListener("click", () => print());
  titles = titleSwitch("certificate-titles", tellTitles);
  byId("certificate-switch").replaceWith(titles.node);
  onSubmit(byId("certificate-file-form"), check);
  onNumber("certificate", open);
}

/** Shows the certificate that the address names. */
export function show(words) {
  const number = words.get("number");
  if (number === null) return;
  if (isNumber(number)) return open(number);
  byId("certificate-told").hidden = true;
  say(byId("certificate-outcome"), "wrong", paragraph(t("fields.numberWrong")));
}

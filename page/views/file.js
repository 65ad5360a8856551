// Filing: files are dropped or chosen, each becomes a record, and their acts go to the office in few requests.
import { mark, onSubmit, untick } from "../fields.js";
import { asking, byId, grouped, made, paragraph, plural, quiet, say } from "../page.js";
import { addRecord, bytesOf } from "../plain/acts.js";
import { digestOf } from "../plain/certificates.js";
import {
  MEMBERS, MOST_CONTENT, MOST_FILES, NO_AGGREGATION, actBytes, base64, forAll, lookAtDay, sizes, wrongOf, wrongsOf,
} from "../plain/filing.js";
import { isDay, isText, today } from "../plain/forms.js";
import { visible } from "../plain/marks.js";
import { hasBirthday } from "../plain/persons.js";
import { batches, isSettled } from "../plain/sending.js";
import { manifestOf } from "../plain/vault.js";
import { askReason, forgetReason } from "../reasons.js";
import { t } from "../texts.js";
import { filesIn, placed, saidBy } from "./file_folders.js";
import { isLeftOut, isVaulted, rowOf, showAnswer, showHead, showValues } from "./file_rows.js";
import * as one from "./file_one.js";
import * as vault from "./file_vault.js";
import { addPanel, guardPage, onDrop, sayFates, send, showSubmit, showSums, whereAggregation, whoHas } from "./filing.js";

/** The files that are listed, in their order; what is written for all of them is in the fields. */
let entries = [];
let lastId = 0;
let isSending = false;

const COMMON = ["prefix", ...MEMBERS.slice(1), "place"];
const commonField = (name) => byId(`file-all-${name}`);
const common = () => Object.fromEntries(COMMON.map((name) => [name, commonField(name).value.trim()]));

/** What the record of a file will be: what is written in its row, else what is written for all. */
function valuesOf(entry, shared = common()) {
  const all = forAll(shared, entry.file, entry.place, entry.said);
  // what is filed is not the file itself
  return { ...all, ...(entry.hasManifest && { ref: `${all.ref}.manifest` }), ...entry.own };
}

const isToBeFiled = (entry) => !isSettled(entry) && !isLeftOut(entry);

/** The manifest of a large file: where it is kept is what is written for all, and its name. */
const manifest = (entry, digest) => manifestOf(digest, entry.file.size, `${common().place}${visible(entry.file.name)}`);

/** How many bytes the content of a record will have. */
function sizeOf(entry) {
  if (entry.hasManifest) return bytesOf(manifest(entry, "0".repeat(64)));
  return isVaulted(entry) ? vault.sizeOfName(entry.file, entry.place) : entry.file.size;
}
const bytesFor = (entry, actDay) => actBytes(actDay, valuesOf(entry), sizeOf(entry));

// ---- what is listed

function showTotals() {
  const { count, bytes, large } = sizes(entries.map(({ file }) => file));
  const filed = entries.filter(isSettled).length;
  const ready = entries.filter(isToBeFiled);
  const manifests = entries.filter((entry) => entry.hasManifest).length;
  measure(ready, today());
  const vaulted = entries.filter(isVaulted).length;
  const ways = { large: large - manifests - vaulted, ...(vaulted ? { vaulted } : { manifests }) };
  showSums("file", { count, bytes, ...ways, filed, ready: ready.length, requests: batches(ready).length });
  byId("file-caption").textContent = t("file.caption", { count: grouped(count) });
  one.offer(ready);
  if (!isSending) showSubmit("file", submitWords(ready, filed), ready.length > 0);
  byId("file-off-filed").hidden = filed === 0;
  byId("file-place").hidden = !entries.some((entry) => entry.hasManifest);
  showLarge(entries.filter(isLeftOut).length);
}

/** The words of the button: how many files are to be filed, or that all are. */
function submitWords(ready, filed) {
  if (!ready.length && filed) return t("file.allFiled");
  if (one.isOne()) return one.submitWords(ready);
  return t(ready.some(({ fate }) => fate) ? "file.again" : "file.submit", { count: grouped(ready.length) });
}

/** Notes how large the act of each file is, and which of them goes alone. */
function measure(ready, actDay) {
  for (const entry of ready) Object.assign(entry, { bytes: bytesFor(entry, actDay), isAlone: isVaulted(entry) });
}

/** What is said of files that are left out since they are too large. */
function largeWords(count) {
  const words = vault.warnings(entries.filter((entry) => !isSettled(entry)).map(({ file }) => file));
  if (!count || vault.state() !== "none") return words;
  return [paragraph(plural("file.tooLarge", count, { most: grouped(MOST_CONTENT) })), paragraph(t("file.tooLargeDo"))];
}

/** Says how many files are left out and what to do: once, so that a screen reader does not hear it at each letter. */
function showLarge(count) {
  const place = byId("file-large");
  const words = largeWords(count);
  const said = words.map(({ textContent }) => textContent).join("\n");
  if (place.dataset.said === said) return;
  place.dataset.said = said;
  if (words.length) say(place, "wrong", ...words);
  else quiet(place);
}

/** What somebody should look at in the values of a record, in words. */
function looksOf({ title, originated }) {
  const look = (name, text, words) =>
    t("import.lookAt", { what: `${t(`file.columns.${name}`)}: ${t("import.quoted", { text: visible(text) })} ${words}` });
  const day = lookAtDay(originated, today(), byId("file-send-day").value.trim());
  const isBirthday = hasBirthday(title, isDay(originated) ? originated : today());
  return [
    ...(day ? [look("originated", originated, t(...day))] : []),
    ...(isBirthday ? [look("title", title, t("import.look.birthday"))] : []),
  ];
}

/** Shows the list, once there is one. */
function refresh() {
  const shared = common();
  for (const entry of entries) {
    const values = valuesOf(entry, shared);
    showValues(entry, values);
    showAnswer(entry, looksOf(values));
  }
  byId("file-list").hidden = entries.length === 0;
  showTotals();
}

/** Takes away that nothing was sent because something is wrong, once somebody writes anew. */
function forgetUnsent() {
  const place = byId("file-send-outcome");
  if (!place.dataset.unsent) return;
  delete place.dataset.unsent;
  quiet(place);
}

function edited(entry, name, value) {
  forgetUnsent();
  entry.own[name] = value.trim();
  mark(entry.inputs[name], "");
  showAnswer(entry, looksOf(valuesOf(entry)));
}

/** Files a manifest in place of a large file, or leaves it out again. */
function replaced(entry, hasManifest) {
  entry.hasManifest = hasManifest;
  entry.fate = null;
  refresh();
  (hasManifest ? commonField("place") : entry.replace).focus();
}

function removed(entry) {
  const at = entries.indexOf(entry);
  entries.splice(at, 1);
  entry.row.remove();
  refresh();
  (entries[at] ?? entries[at - 1])?.off.focus();
  if (!entries.length) byId("file-choose").focus();
}

function remove(these) {
  for (const entry of these) entry.row.remove();
  entries = entries.filter((entry) => !these.includes(entry));
  quiet(byId("file-send-outcome"));
  refresh();
}

/** Lists more files, each with its place in a folder or its name, and says which could not be taken. */
async function take(files) {
  if (files.some(({ file }) => vault.isLarge(file))) {
    asking(byId("file-taken"));
    await vault.ask();
  }
  const room = Math.max(0, MOST_FILES - entries.length);
  const listed = files.slice(0, room);
  const said = await Promise.all(listed.map(({ file }) => saidBy(file)));
  const more = listed.map(({ file, place }, at) => (
    { id: ++lastId, file, place, said: said[at], own: {}, fate: null, hasManifest: false }));
  for (const entry of more) entry.make = () => actOf(entry);
  entries.push(...more);
  byId("file-table").tBodies[0].append(...more.map((entry) => rowOf(entry, { edited, removed, replaced })));
  const over = files.length - room;
  if (over > 0) say(byId("file-taken"), "wrong", paragraph(plural("file.tooMany", over, { most: grouped(MOST_FILES) })));
  else if (!files.length) say(byId("file-taken"), "wrong", paragraph(t("sheetActs.folders.none")));
  else quiet(byId("file-taken"));
  quiet(byId("file-send-outcome"));
  refresh();
}

// ---- what is sent

let day = "";
/** Stops what goes into the vault. */
let stop = new AbortController();

/** The act that files a record whose file is in the vault then, or what became of it. */
async function vaultedActOf(entry) {
  const done = await vault.put(entry.file, entry.place, entry.answer, stop.signal);
  return done.fate ?? addRecord(day, { ...valuesOf(entry), content: base64(done.content) });
}

/** The act that files a record, or null where its file cannot be read any more, or is another one by now. */
async function actOf(entry) {
  if (isVaulted(entry)) return vaultedActOf(entry);
  try {
    let bytes = new Uint8Array(await entry.file.arrayBuffer());
    if (bytes.length !== entry.file.size) return null;
    if (entry.hasManifest) {
      const digest = await digestOf(bytes);
      if (digest === null) return null;
      bytes = new TextEncoder().encode(manifest(entry, digest));
    }
    return addRecord(day, { ...valuesOf(entry), content: base64(bytes) });
  } catch {
    return null;
  }
}

/** What is wrong with a field, in words; where an aggregation is needed, also where its number comes from. */
function wrongWords(wrong) {
  return wrong === NO_AGGREGATION ? `${t(wrong)} ${whereAggregation(false).join("")}` : t(wrong);
}

/** Says what is wrong with what is written for all files: whether something is. */
function markCommon(ready) {
  const shared = common();
  mark(commonField("place"), shared.place && !isText(shared.place) ? t("fields.textWrong") : "");
  for (const name of MEMBERS.slice(1)) {
    const isNeeded = name === "aggregation" && ready.some((entry) => entry.own.aggregation === undefined);
    const wrong = shared[name] || isNeeded ? wrongOf(name, shared[name]) : "";
    mark(commonField(name), wrong ? wrongWords(wrong) : "");
  }
  return byId("file-common").querySelector("[aria-invalid]");
}

/** Says what is wrong in the rows: the first field that is, or none. What is wrong for all is said once, above them. */
function markRows(ready) {
  const shared = common();
  const wrongs = wrongsOf(entries.map((entry) => valuesOf(entry, shared)));
  let first = null;
  for (const entry of ready) {
    const wrong = wrongs[entries.indexOf(entry)];
    for (const name of MEMBERS) {
      const isOwn = name === "ref" || name === "title" || entry.own[name] !== undefined;
      mark(entry.inputs[name], wrong[name] && isOwn ? t(wrong[name]) : "");
      if (wrong[name] && isOwn) first ??= entry.inputs[name];
    }
  }
  return first;
}

/** The refusal that says that a ref is taken. */
const EXISTS = 4;

/** Finds which record has the ref of each file that was refused for it. */
async function nameTaken(ready) {
  for (const entry of ready) {
    entry.taken = entry.fate?.refusal === EXISTS ? await whoHas(valuesOf(entry).ref) : null;
  }
}

async function fileAll(values, ready) {
  const place = byId("file-send-outcome");
  if (!ready.length) return say(place, "wrong", paragraph(t("file.nothing")));
  // of one record of all files the first row says what it is
  const records = one.isOne() ? ready.slice(0, 1) : ready;
  const inRows = markRows(records);
  const wrong = markCommon(records) ?? inRows;
  if (wrong) {
    const lacksOne = ready.some((entry) => valuesOf(entry).aggregation === "");
    const needed = [made("p", {}, `${t(NO_AGGREGATION)} `, ...whereAggregation())];
    say(place, "wrong", paragraph(t("file.wrong")), ...(lacksOne ? needed : []));
    place.dataset.unsent = "yes";
    return wrong.focus();
  }
  if (one.isOne() && !one.fits(ready)) return say(place, "wrong", paragraph(t("vault.one.tooMany")));
  delete place.dataset.unsent;
  quiet(place);
  day = values["file-send-day"];
  measure(ready, day);
  stop = new AbortController();
  const items = one.isOne() ? [one.itemOf(ready, valuesOf(ready[0]), day, stop.signal)] : ready;
  isSending = true;
  const answer = await send("file", items, refresh);
  // there is less room by now
  if (items[0].isAlone || ready.some(isVaulted)) await vault.ask();
  isSending = false;
  await nameTaken(ready);
  refresh();
  if (items.every(isSettled)) {
    untick(byId("file-send"));
    forgetReason(byId("file-send"));
  }
  sayFates(place, items, answer);
  place.focus();
}

// ---- the view

export function start() {
  guardPage();
  addPanel("file");
  askReason(byId("file-send"), ["add-record"]);
  showHead(byId("file-table"));
  for (const id of ["file-choose", "file-folder"]) {
    byId(id).addEventListener("change", ({ target }) => {
      take(placed(target.files));
      // so that the same file can be chosen again
      target.value = "";
    });
  }
  onDrop(byId("file-drop"), async (files, folders, entries_) => take(entries_ ? await filesIn(entries_) : placed(files)));
  for (const name of COMMON) {
    commonField(name).addEventListener("input", () => {
      mark(commonField(name), "");
      forgetUnsent();
      refresh();
    });
  }
  byId("file-off-all").addEventListener("click", () => {
    remove(entries);
    byId("file-choose").focus();
  });
  byId("file-off-filed").addEventListener("click", () => {
    remove(entries.filter(isSettled));
    byId("file-choose").focus();
  });
  byId("file-one-tick").addEventListener("change", refresh);
  for (const kind of ["input", "change"]) byId("file-send-day").addEventListener(kind, () => isSending || refresh());
  byId("file-stop").addEventListener("click", () => stop.abort());
  onSubmit(byId("file-send"), fileAll, () => entries.filter(isToBeFiled));
}

/** Shows the files that are listed, and what is true of large ones by now. */
export async function show() {
  if (isSending) return;
  await vault.ask();
  byId("file-choose-hint").textContent = t(vault.state() === "there" ? "vault.chooseHint" : "file.chooseHint");
  if (entries.length && !isSending) refresh();
}

// Import: a CSV of a spreadsheet program is read, shown as what its rows will be, and sent in few requests.
import { onSubmit, untick } from "../fields.js";
import { byId, grouped, made, paragraph, plural, quiet, save, say } from "../page.js";
import { addRecord, bytesOf } from "../plain/acts.js";
import { today } from "../plain/forms.js";
import { visible } from "../plain/marks.js";
import { batches, isSettled } from "../plain/sending.js";
import { askReason, forgetReason } from "../reasons.js";
import { NAMES } from "../sheet/columns.js";
import { RECORDS, formOf } from "../sheet/kinds.js";
import { glimpsed, turned } from "../sheet/turning.js";
import { Unreadable } from "../sheet/unreadable.js";
import { t } from "../texts.js";
import { addPanel, onDrop, sayFates, send, showSubmit, showSums, whereAggregation } from "./filing.js";
import * as acts from "./import_acts.js";
import * as documents from "./import_documents.js";
import * as reading from "./import_reading.js";
import * as preview from "./import_rows.js";
import { notTaken } from "./import_saved.js";

/** A sheet with more bytes is not read: the page would stand still. */
const MOST_BYTES = 64 * 1048576;

/**
 * The sheet that is shown: its name and bytes, what somebody says of it, what each row is, and what came of it; the
 * numbers of the aggregations that its rows added.
 */
const sheet = { name: "", bytes: null, options: {}, kind: RECORDS, found: null, numbers: new Map() };
let isSending = false;
let day = "";

const rows = () => sheet.found?.rows ?? [];
const items = () => rows().map((row) => row.item).filter(Boolean);
const left = () => items().filter((item) => !isSettled(item));

// ---- reading

const wordsOf = (row) => Object.fromEntries(NAMES.map((name, at) => [name, row.values[at] ?? ""]));

/** The item by which a good row is sent, or null where it is not to be sent. */
function itemOf(row) {
  if (row.wrong.length || row.left) return null;
  if (sheet.kind !== RECORDS) return acts.actItem(row, () => day, sheet.numbers);
  const values = wordsOf(row);
  row.document = documents.documentOf(values);
  if (row.document) return documents.itemOf(values, row.document, () => day);
  const bytes = bytesOf(JSON.stringify(addRecord(today(), values)));
  return { bytes, make: async () => addRecord(day, values), fate: null };
}

/** The columns that are needed and not there; of some one is enough. */
function missingWords({ missing, either = [] }) {
  const others = missing.filter((name) => !either.includes(name)).map(acts.columnWord);
  const one = either.length ? [t(`${acts.PART}.oneOf`, { names: either.map(acts.columnWord).join(", ") })] : [];
  return [...one, ...others].join(", ");
}

/** What keeps a sheet from being read, and what can be done; where a day has two readings, one is chosen here. */
function sayUnreadable({ kind, values }) {
  const words = { ...values };
  if (values.missing) words.missing = missingWords(values);
  if (values.places) words.found = reading.placesWords(values.places);
  if (values.name && formOf(sheet.kind).names.includes(values.name)) words.name = acts.columnWord(values.name);
  if (values.text) words.text = visible(values.text);
  if (values.encoding) words.encoding = t(`import.encodings.${values.encoding}`);
  const buttons = Object.entries(values.read ?? {}).map(([order, read]) => {
    const meant = t("import.readAs", { day: read, order: t(`import.orders.${order}`) });
    const button = made("button", { type: "button", class: "quiet" }, meant);
    button.addEventListener("click", () => {
      changed({ days: order });
      byId("import-filter").focus();
    });
    return button;
  });
  const choice = buttons.length ? [made("div", { class: "tools" }, ...buttons)] : [];
  if (sheet.kind === RECORDS && values.missing?.includes("aggregation")) choice.push(made("p", {}, ...whereAggregation()));
  const look = kind === "doubtful" ? "unknown" : "wrong";
  const key = kind === "missing" && !words.found ? "missingAll" : kind;
  say(byId("import-outcome"), look, paragraph(t(`import.unreadable.${key}`, words)), ...choice);
}

/** Reads the sheet as it is said; null where it cannot be read, which is said too. */
function read() {
  try {
    return turned(sheet.bytes, sheet.options);
  } catch (why) {
    if (!(why instanceof Unreadable)) throw why;
    // the header is further down: it is taken there, and the field says so
    if (why.kind === "header" && sheet.options.header === undefined) {
      sheet.options.header = why.values.better;
      return read();
    }
    sayUnreadable(why);
    return null;
  }
}

/** The header by which columns are chosen, and which of them are known, also of a sheet that cannot be read whole. */
function headerOf() {
  try {
    return sheet.found ? { ...sheet.found, ...sheet.found.columns, both: {} } : glimpsed(sheet.bytes, sheet.options);
  } catch (why) {
    if (!(why instanceof Unreadable)) throw why;
    return { header: [], places: {}, both: {} };
  }
}

/** What the catalogue has for rows of a kind; the view is busy until that is known. */
async function lookUp(kind) {
  byId("import-sheet").setAttribute("aria-busy", "true");
  const catalogue = await acts.lookUp(kind);
  byId("import-sheet").removeAttribute("aria-busy");
  return catalogue ?? undefined;
}

/** Finds what each row is: what somebody chose, else what the header shows. Until then rows are of the kind that is shown. */
async function findKind() {
  const { header } = headerOf();
  const shown = acts.kindShown(header);
  const kind = byId("import-kind").value || shown;
  const catalogue = await lookUp(kind);
  sheet.kind = kind;
  Object.assign(sheet.options, { kind, catalogue });
  byId("import-kind").options[0].text = t("import.foundIs", { value: t(`${acts.PART}.kinds.${shown}`) });
  reading.takeKind(sheet.kind, changed);
  preview.takeKind(sheet.kind);
  byId("import-acts-about").hidden = sheet.kind === RECORDS;
  byId("import-with").hidden = sheet.kind !== RECORDS;
  const part = sheet.kind === RECORDS ? "import" : acts.PART;
  byId("import-send").querySelector("legend").textContent = t(`${part}.send`);
  byId("import-send").querySelector("fieldset > .hint").textContent = t(`${part}.sendAbout`);
}

/** Reads the sheet anew, and shows what came of it. */
function refresh() {
  quiet(byId("import-outcome"));
  quiet(byId("import-send-outcome"));
  Object.assign(sheet.options, { today: today(), day: byId("import-send-day").value });
  sheet.numbers = new Map();
  sheet.found = read();
  if (sheet.found) acts.lookForBirthdays(rows(), sheet.found.columns);
  for (const row of rows()) row.item = itemOf(row);
  const there = headerOf();
  reading.show(sheet.options, there.header, there);
  byId("import-sheet").hidden = false;
  byId("import-sheet").dataset.kind = sheet.kind;
  byId("import-rows").hidden = !sheet.found;
  byId("import-heading").textContent = visible(sheet.name);
  if (!sheet.found) return;
  preview.take(rows());
  askReason(byId("import-send"), sheet.kind === RECORDS ? [RECORDS] : rows().flatMap(({ act }) => (act ? [act.act] : [])));
  showTotals();
}

/** Takes what somebody says each row is: what was said of columns was of another kind. */
async function kindChanged() {
  sheet.options = { ...sheet.options, columns: {}, set: {} };
  await findKind();
  const { columns, set } = reading.recalled(headerOf().header, sheet.kind);
  Object.assign(sheet.options, { columns, set: acts.sameValues(sheet.kind, set) });
  refresh();
}

/** Takes the documents that somebody chose, and the column that names them where no column of contents is known. */
function documentsChosen() {
  if (!sheet.bytes || sheet.kind !== RECORDS) return;
  delete sheet.options.documents;
  Object.assign(sheet.options, documents.options());
  const columns = sheet.found?.columns.places ?? {};
  const at = "content" in columns ? undefined : documents.columnIn(rows());
  changed(at === undefined ? {} : { columns: { content: at } });
}

/** Takes what somebody says of the sheet, and reads it anew. */
function changed(said) {
  const { columns, set, ...others } = said;
  sheet.options = { ...sheet.options, ...others };
  if (columns) sheet.options.columns = said.header ? {} : { ...sheet.options.columns, ...columns };
  if (set) {
    sheet.options.set = { ...sheet.options.set, ...set };
    for (const [name, value] of Object.entries(set)) if (value === undefined) delete sheet.options.set[name];
  }
  refresh();
}

/** Takes a file in place of the sheet that is shown. */
async function take([file], folders = []) {
  const place = byId("import-outcome");
  if (folders.length) return say(place, "wrong", paragraph(t("import.noFile")));
  if (!file) return;
  byId("import-sheet").hidden = true;
  if (file.size > MOST_BYTES) {
    return say(place, "wrong", paragraph(t("import.tooLarge", { most: grouped(MOST_BYTES) })));
  }
  try {
    sheet.bytes = new Uint8Array(await file.arrayBuffer());
  } catch {
    return say(place, "wrong", paragraph(t("import.noFile")));
  }
  sheet.name = file.name;
  sheet.options = documents.options();
  sheet.found = null;
  await findKind();
  const days = recall();
  refresh();
  if (sheet.options.documents) documentsChosen();
  const order = t(`import.orders.${days}`);
  if (days && sheet.found) say(place, "unknown", paragraph(t("import.recalledDays", { order })));
}

/** Takes up what was said of an earlier sheet with the same names: the order of days, where only that decides it. */
function recall() {
  const { columns, set, days } = reading.recalled(headerOf().header, sheet.kind);
  sheet.options = { ...sheet.options, columns, set: acts.sameValues(sheet.kind, set) };
  try {
    turned(sheet.bytes, sheet.options);
  } catch (why) {
    if (!(why instanceof Unreadable)) throw why;
    if (why.kind === "doubtful" && days) {
      sheet.options.days = days;
      return days;
    }
  }
  return null;
}

// ---- what is sent

function showTotals() {
  const ready = left();
  const wrong = rows().filter((row) => row.wrong.length).length;
  const filed = items().filter(isSettled).length;
  const { empty } = sheet.found;
  const requests = batches(ready).length;
  const isActs = sheet.kind !== RECORDS;
  const passed = sheet.kind === "confirm" ? { left: rows().filter((row) => row.left).length } : {};
  const sums = { count: rows().length, ready: ready.length, wrong, ...passed, empty, filed, requests };
  showSums("import", sums, isActs ? acts.PART : "import");
  const submit = isActs ? `${acts.PART}.submit` : "import.submit";
  const none = filed ? "import.allDone" : submit;
  const key = ready.some(({ fate }) => fate) ? "file.again" : ready.length ? submit : none;
  if (!isSending) showSubmit("import", t(key, { count: grouped(ready.length) }), ready.length > 0);
  const refused = rows().filter(preview.isRefused).length;
  byId("import-save").hidden = refused === 0;
  byId("import-save").textContent = plural("import.save", refused);
}

function progressed() {
  preview.draw();
  showTotals();
}

async function importAll(values, ready) {
  const place = byId("import-send-outcome");
  if (!ready.length) return say(place, "wrong", paragraph(t("import.nothing")));
  quiet(place);
  day = values["import-send-day"];
  reading.remember(sheet.found, sheet.kind);
  isSending = true;
  documents.begin();
  const isActs = sheet.kind !== RECORDS;
  const open = rows().filter((row) => row.item && !isSettled(row.item));
  const answer = await (isActs ? acts.sendActs(open, sheet.numbers, progressed) : send("import", ready, progressed));
  isSending = false;
  progressed();
  if (ready.every(isSettled)) {
    untick(byId("import-send"));
    forgetReason(byId("import-send"));
  }
  sayFates(place, ready, answer, isActs ? acts.PART : "filing");
  const wrong = rows().filter((row) => row.wrong.length).length;
  if (wrong) place.append(paragraph(plural("import.leftOut", wrong)));
  if (rows().some(preview.isRefused)) place.append(paragraph(t("import.saveAbout")));
  place.focus();
}

/** Saves the rows that were not taken, with their reasons. */
function saveRefused() {
  const text = notTaken(visible(sheet.name), sheet.found, rows().filter(preview.isRefused));
  save(t("import.file", { name: sheet.name.replace(/\.[^.]*$/, "") }), new TextEncoder().encode(text), "text/csv");
}

// ---- the view

export function start() {
  addPanel("import");
  const choose = byId("import-choose");
  choose.addEventListener("change", async () => {
    await take([...choose.files]);
    // so that the same file can be chosen again, once it is corrected
    choose.value = "";
  });
  onDrop(byId("import-drop"), take);
  reading.start(changed);
  documents.start(documentsChosen);
  preview.start();
  byId("import-kind").append(...acts.kindOptions());
  byId("import-kind").addEventListener("change", kindChanged);
  byId("import-save").addEventListener("click", saveRefused);
  onSubmit(byId("import-send"), importAll, left);
}

/** Shows the sheet that was chosen. */
export function show() {}

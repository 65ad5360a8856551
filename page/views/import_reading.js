// How a sheet is read, in the view Import: what was found, what somebody chooses instead, and which column is which.
import { byId, made } from "../page.js";
import { visible } from "../plain/marks.js";
import { ENCODINGS } from "../sheet/bytes.js";
import { plain } from "../sheet/columns.js";
import { ORDERS } from "../sheet/days.js";
import { RECORDS, formOf } from "../sheet/kinds.js";
import { signedBy } from "../rights.js";
import { SEPARATORS, letters } from "../sheet/rows.js";
import { t } from "../texts.js";
import { columnWord } from "./import_acts.js";

/** What a column may be in place of one of the sheet. */
const NONE = "none";
const SAME = "same";
/** What it is while it may be either of two. */
const EITHER = "";
/** The columns that cannot well be the same in each row. */
const APART = ["ref", "content", "code", "digest", "target", "record", "act"];

/** The columns of what each row is. */
let form = formOf(RECORDS);
/** Those that somebody chooses: who acts is not among them where a gate signs. */
let chosen = form.names;
/** A column that may well be the same in each row: of a closing not even the aggregation. */
const isShared = (name) => !APART.includes(name) && !(form.either.includes(name) && name !== "class");

/** Where the words of the choices of a field are. */
const WORDS = { encoding: "encodings", separator: "separators", days: "orders" };

const select = (name) => byId(`import-${name}`);
const options = (pairs) => pairs.map(([value, text]) => made("option", { value }, text));

/**
 * What was matched by hand, for as long as the page is open and for each kind of rows: names of headers, values for all
 * rows, orders of days.
 */
const memory = new Map();

function rememberedOf(kind) {
  if (!memory.has(kind)) memory.set(kind, { names: new Map(), values: {}, orders: new Map() });
  return memory.get(kind);
}

const signature = (header) => header.map(plain).join("|");

/** Keeps in mind what was said of a sheet, for the next one with the same names. */
export function remember({ columns, order }, kind) {
  const remembered = rememberedOf(kind);
  for (const [name, at] of Object.entries(columns.places)) remembered.names.set(plain(columns.header[at]), name);
  remembered.values = { ...columns.values };
  remembered.orders.set(signature(columns.header), order.name);
}

/** What was said of an earlier sheet, as far as this header has the same names. */
export function recalled(header, kind) {
  const remembered = rememberedOf(kind);
  const columns = {};
  header.forEach((cell, at) => {
    const name = remembered.names.get(plain(cell));
    if (name && !(name in columns)) columns[name] = at;
  });
  const days = remembered.orders.get(signature(header));
  return { columns, set: days ? { ...remembered.values } : {}, days };
}

// ---- the fields

/** Fills the fields that have the same choices for each sheet; `changed` is called with what somebody chooses. */
export function start(changed) {
  const choices = { encoding: Object.keys(ENCODINGS), separator: Object.keys(SEPARATORS), days: ORDERS };
  for (const [name, values] of Object.entries(choices)) {
    const pairs = values.map((value) => [value, t(`import.${WORDS[name]}.${value}`)]);
    select(name).append(...options([["", t("import.found")], ...pairs]));
    select(name).addEventListener("change", () => changed({ [name]: select(name).value || undefined }));
  }
  const years = [1930, 1950, 2000].map((first) => [first, t("import.years", { first, last: first + 99 })]);
  select("years").append(...options([["", t("import.noYears")], ...years]));
  select("years").addEventListener("change", () => changed({ years: Number(select("years").value) || undefined }));
  select("join").addEventListener("change", () => changed({ joinLines: select("join").checked }));
  const header = select("header");
  header.addEventListener("change", () => {
    const row = Math.min(Math.max(1, Number.parseInt(header.value, 10) || 1), 999999);
    changed({ header: row, columns: {} });
  });
}

/** Has the columns of what each row is to choose from. */
export function takeKind(kind, changed) {
  form = formOf(kind);
  chosen = form.names.filter((name) => name !== "by" || !signedBy());
  byId("import-columns").replaceChildren(...chosen.map((name) => columnField(name, changed)));
}

/** The field that says which column of the sheet is one of an import. */
function columnField(name, changed) {
  const id = `import-column-${name}`;
  const choice = made("select", { id });
  const named = { "aria-label": t("import.sameOf", { name: columnWord(name) }) };
  const plainly = { type: "text", autocomplete: "off", spellcheck: "false" };
  const value = made("input", { id: `import-same-${name}`, ...plainly, ...named });
  const choose = () => {
    value.hidden = choice.value !== SAME;
    const columns = { [name]: choice.value === NONE || choice.value === SAME ? null : Number(choice.value) };
    changed({ columns, set: { [name]: choice.value === SAME ? value.value.trim() : undefined } });
  };
  choice.addEventListener("change", () => {
    choose();
    if (!value.hidden) value.focus();
  });
  value.addEventListener("change", choose);
  value.hidden = true;
  return made("div", { class: "field" }, made("label", { for: id }, columnWord(name)), choice, value);
}

/** The words of a column of the sheet: its letters and its name. */
const columnWords = (cell, at) => `${letters(at)}: ${visible(cell.trim()) || t("import.nameless")}`;

// ---- what was found

/** Columns with their letters, as `Ref (A), Title (B)`. */
export const placesWords = (places) =>
  form.names.filter((name) => name in places)
    .map((name) => t("import.inColumn", { name: columnWord(name), column: letters(places[name]) }))
    .join(", ");

/** Which columns are matched, which may be either of two, which are the same in each row, and which are not matched. */
function matchWords(found, set) {
  const { places, both } = found;
  const either = (name) => both[name].map(letters).join(", ");
  const eitherOf = (name) => t("import.inColumn", { name: columnWord(name), column: either(name) });
  const isNeeded = (name) => form.needed.includes(name);
  const neededOf = (name) => (isNeeded(name) ? t("import.neededOf", { name: columnWord(name) }) : columnWord(name));
  const unmatched = form.names.filter((name) => !(name in places) && !(name in both) && !(name in set));
  const lists = {
    matched: placesWords(places),
    unclear: Object.keys(both).map(eitherOf).join(", "),
    sameFor: Object.keys(set).map(columnWord).join(", "),
    unmatched: unmatched.map(neededOf).join(", "),
  };
  const parts = Object.entries(lists).filter(([, names]) => names);
  return parts.map(([part, names]) => t(`import.${part}`, { names })).join(" ");
}

/** Shows the columns of the sheet in the list of one of an import, and which of them it is. */
function showColumn(name, columns, found, value) {
  const choice = select(`column-${name}`);
  const isUnclear = name in found.both;
  const same = isShared(name) ? [[SAME, t("import.same")]] : [];
  choice.replaceChildren(...options([[NONE, t("import.none")], ...same, ...columns]));
  if (isUnclear) choice.prepend(made("option", { value: EITHER, disabled: "" }, t("import.either")));
  // who acts is mostly the same in each row, and is asked for at once
  const isAsked = name === "by" && !(name in found.places);
  choice.value = isUnclear ? EITHER : value !== undefined || isAsked ? SAME : found.places[name] ?? NONE;
  const input = select(`same-${name}`);
  input.hidden = choice.value !== SAME;
  if (document.activeElement !== input) input.value = value ?? "";
}

/**
 * Shows what was found of a sheet, and what somebody chose: `found` has the places of the columns that are known, also
 * where the sheet cannot be read whole.
 */
export function show(options_, header, found) {
  const there = { encoding: found.encoding, separator: found.separator, days: found.order?.name };
  for (const [name, value] of Object.entries(there)) {
    const words = value ? t("import.foundIs", { value: t(`import.${WORDS[name]}.${value}`) }) : t("import.found");
    select(name).options[0].text = words;
    select(name).value = options_[name] ?? "";
  }
  select("years").value = options_.years ?? "";
  select("header").value = options_.header ?? 1;
  select("join").checked = Boolean(options_.joinLines);
  const columns = header.map((cell, at) => [at, columnWords(cell, at)]);
  const set = options_.set ?? {};
  for (const name of chosen) showColumn(name, columns, found, set[name]);
  byId("import-matched").textContent = header.length ? matchWords(found, set) : "";
  const used = new Set([...Object.values(found.places), ...Object.values(found.both).flat()]);
  const unused = header.filter((cell, at) => !used.has(at) && cell.trim()).map((cell) => visible(cell.trim()));
  byId("import-unused").textContent = unused.length ? t("import.unused", { names: unused.join(", ") }) : "";
}

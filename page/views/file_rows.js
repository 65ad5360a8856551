// The table of the view File: a row for each file, with what its record will be and what became of it.
import { inBytes, label, made } from "../page.js";
import { MEMBERS } from "../plain/filing.js";
import { visible } from "../plain/marks.js";
import { isSettled } from "../plain/sending.js";
import { t } from "../texts.js";
import * as vault from "./file_vault.js";
import { fateWords } from "./filing.js";

const COLUMNS = ["file", ...MEMBERS, "answer"];

/** The headings. */
export function showHead(table) {
  const words = COLUMNS.map((name) => t(`file.columns.${name}`));
  const heads = words.map((word) => made("th", { scope: "col", role: "columnheader" }, word));
  table.tHead.replaceChildren(made("tr", { role: "row" }, ...heads));
  label(table, words);
}

/** The field for one value of a record, with room for what is wrong with it. */
function fieldOf(entry, name, edited) {
  const id = `file-row-${entry.id}-${name}`;
  const words = { name: visible(entry.file.name), column: t(`file.columns.${name}`) };
  const input = made("input", {
    id, type: "text", autocomplete: "off", spellcheck: "false", autocapitalize: "off",
    "aria-label": t("file.fieldOf", words), "aria-describedby": `${id}-wrong`,
  });
  input.addEventListener("input", () => edited(entry, name, input.value));
  return [input, made("strong", { class: "wrong", id: `${id}-wrong` })];
}

/** A small button of a row: its text, and its name, which has that of the file in it. */
function buttonOf(key, name, pressed) {
  const named = { type: "button", class: "quiet off", "aria-label": t(`${key}Of`, { name }) };
  const button = made("button", named, t(key));
  button.addEventListener("click", pressed);
  return button;
}

/**
 * The row of a file. `edited` is called with what somebody writes, `removed` once the file is to be taken off, `replaced`
 * once a file that is too large is to have its manifest filed, or not any more.
 */
export function rowOf(entry, { edited, removed, replaced }) {
  const name = visible(entry.file.name);
  const off = buttonOf("file.off", name, () => removed(entry));
  entry.replace = buttonOf("file.manifest", name, () => replaced(entry, true));
  entry.leave = buttonOf("file.leave", name, () => replaced(entry, false));
  const words = [made("span", { class: "named" }, name), made("span", { class: "hint" }, inBytes(entry.file.size))];
  if (entry.said?.originated) words.push(made("span", { class: "hint" }, t("sheetActs.folders.mail")));
  const first = made("th", { scope: "row", role: "rowheader" }, ...words);
  const cells = MEMBERS.map((member) => made("td", { role: "cell" }, ...fieldOf(entry, member, edited)));
  const answer = made("td", { role: "cell" });
  entry.off = off;
  entry.answer = answer;
  entry.inputs = Object.fromEntries(MEMBERS.map((member, at) => [member, cells[at].firstChild]));
  entry.row = made("tr", { role: "row" }, first, ...cells, answer);
  return entry.row;
}

/** Whether a file goes into the vault. */
export const isVaulted = (entry) => vault.goesIn(entry.file);

/** Whether a file is left out: it is too large, there is no vault for it, and its manifest is not filed in its place. */
export const isLeftOut = (entry) => vault.isLarge(entry.file) && !entry.hasManifest && !isVaulted(entry);

/** Whether its manifest may be filed in its place: where the office has no vault. */
const mayBeReplaced = (entry) => vault.isLarge(entry.file) && vault.state() === "none";

/** What is filed of it, if that is not its bytes as a content. */
const kindOf = (entry) => (entry.hasManifest ? "manifest" : entry.isInVault || isVaulted(entry) ? "vault" : "");

function words(entry) {
  if (entry.fate) return fateWords(entry.fate, kindOf(entry));
  if (isLeftOut(entry)) return made("strong", { class: "wrong" }, t("file.large"));
  return made("span", { class: "hint" }, t(`file.${kindOf(entry)}${kindOf(entry) ? "Ready" : "ready"}`));
}

/** Shows what became of a file, and what somebody should look at. One that is filed is not written into any more. */
export function showAnswer(entry, looks = []) {
  const taken = entry.taken && entry.fate?.kind === "refused" ? [entry.taken] : [];
  const notes = looks.map((it) => made("p", { class: "fate unknown" }, it));
  const choice = mayBeReplaced(entry) && !isSettled(entry) ? [entry.hasManifest ? entry.leave : entry.replace] : [];
  entry.answer.replaceChildren(...taken, words(entry), ...notes, ...choice, entry.off);
  const fixed = isSettled(entry) || isLeftOut(entry);
  for (const input of Object.values(entry.inputs)) input.readOnly = fixed;
  entry.row.classList.toggle("fixed", fixed);
}

/** Writes the values of a record, where nobody is writing another one just then. */
export function showValues(entry, values) {
  for (const name of MEMBERS) {
    if (entry.inputs[name].value.trim() !== values[name]) entry.inputs[name].value = values[name];
  }
}

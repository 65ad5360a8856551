// The documents that a column of a sheet names, in the view Import: the bytes of each are the content of its record.
import { asking, byId, made, paragraph, plural, quiet, say } from "../page.js";
import { addRecord } from "../plain/acts.js";
import { actBytes, base64 } from "../plain/filing.js";
import { today } from "../plain/forms.js";
import { Documents } from "../sheet/documents.js";
import { filesIn, placed } from "./file_folders.js";
import * as vault from "./file_vault.js";
import { onDrop } from "./filing.js";

let documents = null;
/** Stops what goes into the vault. */
let stop = new AbortController();

/** What is said of a sheet by the documents that were chosen. */
export const options = () => (documents ? { documents } : {});

/** Begins a new sending. */
export const begin = () => (stop = new AbortController());

/** The column in which most cells name documents, or undefined. */
export function columnIn(rows) {
  if (!documents || !rows.length) return undefined;
  const width = Math.max(...rows.map(({ cells }) => cells.length));
  const counts = Array.from({ length: width }, (_, at) => documents.count(rows.map(({ cells }) => (cells[at] ?? "").trim())));
  const most = Math.max(...counts);
  return most ? counts.indexOf(most) : undefined;
}

/** The document of a row that is right, or null where its cell is empty. */
export const documentOf = (values) => (documents && values.content ? documents.named(values.content) : null);

/** The act of a row whose content is a document: null or a fate where it cannot be made. */
async function actOf(day, values, { file, place }) {
  if (vault.goesIn(file)) {
    const there = byId("import-going");
    const done = await vault.put(file, place, there, stop.signal);
    there.replaceChildren();
    return done.fate ?? addRecord(day, { ...values, content: base64(done.content) });
  }
  try {
    const bytes = new Uint8Array(await file.arrayBuffer());
    return bytes.length === file.size ? addRecord(day, { ...values, content: base64(bytes) }) : null;
  } catch {
    return null;
  }
}

/** The item by which a row with a document is sent. @param {() => string} day */
export function itemOf(values, document, day) {
  const isAlone = vault.goesIn(document.file);
  const size = isAlone ? vault.sizeOfName(document.file, document.place) : document.file.size;
  return { bytes: actBytes(today(), values, size), make: () => actOf(day(), values, document), fate: null, isAlone };
}

/** Takes documents in place of those that were chosen before. */
async function take(files, changed) {
  const place = byId("import-documents-taken");
  asking(place);
  await vault.ask();
  documents = files.length ? new Documents(files, vault.goesIn) : null;
  const warnings = vault.warnings(files.map(({ file }) => file));
  if (!documents) quiet(place);
  else say(place, warnings.length ? "unknown" : "done", paragraph(plural("import.documents.taken", files.length)), ...warnings);
  changed();
}

/** Starts the fields; `changed` is called once documents are chosen. */
export function start(changed) {
  for (const id of ["import-documents", "import-folder"]) {
    byId(id).addEventListener("change", ({ target }) => take(placed(target.files), changed));
  }
  onDrop(byId("import-documents-drop"), async (files, folders, entries) => take(entries ? await filesIn(entries) : placed(files), changed));
  byId("import-progress").after(made("div", { id: "import-going" }));
  byId("import-stop").addEventListener("click", () => stop.abort());
}

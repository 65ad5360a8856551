// One record of several files, in the view File: all of them go into the vault, and the record of the first row names them.
import { byId, grouped } from "../page.js";
import { addRecord } from "../plain/acts.js";
import { MOST_CONTENT, actBytes, base64 } from "../plain/filing.js";
import { today } from "../plain/forms.js";
import { t } from "../texts.js";
import * as vault from "./file_vault.js";

/** Offers that these files become one record, where there is a vault and more than one of them. */
export function offer(ready) {
  byId("file-one").hidden = vault.state() !== "there" || ready.length < 2;
}

/** Whether all files on the list are to become one record. */
export const isOne = () => !byId("file-one").hidden && byId("file-one-tick").checked;

/** How many bytes the content is that names these files, and whether it is one. */
const sizeOf = (entries) => entries.reduce((sum, { file, place }) => sum + vault.sizeOfName(file, place), 0);
export const fits = (entries) => sizeOf(entries) <= MOST_CONTENT;

/** The words of the button that files them. */
export const submitWords = (ready) => t("vault.one.submit", { count: grouped(ready.length) });

/** Puts the files in, one after another: the content that names all, or why it is not filed. */
async function contentOf(entries, stop) {
  const parts = [];
  for (const entry of entries) {
    const done = await vault.put(entry.file, entry.place, entry.answer, stop);
    if (done.fate) return done;
    parts.push(done.content);
  }
  return { content: new Uint8Array(await new Blob(parts).arrayBuffer()) };
}

/**
 * The item of one record of all these files. What becomes of it becomes of each of them.
 * @param {object[]} entries
 * @param {object} values those of the record
 * @param {string} day
 * @param {AbortSignal} stop
 * @returns {import("../plain/sending.js").Item}
 */
export function itemOf(entries, values, day, stop) {
  const make = async () => {
    const done = await contentOf(entries, stop);
    return done.fate ?? addRecord(day, { ...values, content: base64(done.content) });
  };
  return {
    bytes: actBytes(today(), values, sizeOf(entries)),
    make,
    isAlone: true,
    get fate() {
      return entries[0].fate;
    },
    set fate(fate) {
      for (const entry of entries) Object.assign(entry, { fate, isInVault: true });
    },
  };
}

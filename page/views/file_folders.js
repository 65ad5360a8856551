// Folders in the view File: all files of one that is dropped or chosen, and the days that mails say of themselves.
import { HEAD, mailOf } from "../plain/mails.js";
import { isText } from "../plain/forms.js";

/** The entries of a folder; a browser gives some of them at a time. */
async function entriesOf(folder) {
  const reader = folder.createReader();
  const found = [];
  for (let more = [null]; more.length;) {
    more = await new Promise((done, failed) => reader.readEntries(done, failed));
    found.push(...more);
  }
  return found;
}

const fileOf = (entry) => new Promise((done, failed) => entry.file(done, failed));

/** The files of entries that were dropped, each with its place: that of a file in a folder begins with the folder's name. */
export async function filesIn(entries) {
  const found = [];
  for (const entry of entries) {
    if (entry.isDirectory) {
      const inside = await entriesOf(entry);
      inside.sort((one, other) => (one.name < other.name ? -1 : 1));
      found.push(...(await filesIn(inside)));
    } else {
      const file = await fileOf(entry);
      // a file that was dropped alone has only its name
      found.push({ file, place: entry.fullPath.replace(/^\//, "") });
    }
  }
  return found;
}

/** Files that were chosen by a field, each with its place in the folder that was chosen, or its name. */
export const placed = (files) => [...files].map((file) => ({ file, place: file.webkitRelativePath || file.name }));

/** What a mail says of itself, as the record of its file has it; nothing of any other file. */
export async function saidBy(file) {
  if (!/\.eml$/i.test(file.name)) return {};
  try {
    const { day, subject } = mailOf(new Uint8Array(await file.slice(0, HEAD).arrayBuffer()));
    return { ...(day ? { originated: day } : {}), ...(subject && isText(subject) ? { title: subject } : {}) };
  } catch {
    return {};
  }
}

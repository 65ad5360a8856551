// What is not any more as it was shown when somebody is about to act on it: said, with nothing sent, until it is asked for again.
import { grouped, link, made, paragraph, plural, quiet, say, tableOf, told } from "../page.js";
import { canBeConfirmed, changed, valueOf } from "../plain/lists.js";
import { visible } from "../plain/marks.js";
import { all, t } from "../texts.js";

/** A member of a row in words. */
function wordOf(name, row) {
  if (name === "action") return t(`actions.${row.action}`);
  if (name === "confirmed") return t(`due.${valueOf(row, name)}`);
  return row[name] ?? t(name === "held" ? "due.free" : "changes.none");
}

/** What differs between two rows, each as a list of cells: what it is, as it was shown, as it is now. */
export const differences = (row, now, names) =>
  names.map((name) => [t(`due.columns.${name}`), wordOf(name, row), wordOf(name, now)]);

/** The rows that differ, each with what differs. */
function changesTable(changes) {
  const { record, ref, what, shown, now: there } = all().changes.columns;
  const cells = changes.flatMap(({ row, now, names }) => {
    const parts = now ? differences(row, now, names) : [["", "", t("changes.gone")]];
    return parts.map((part) => [link(`#record?number=${row.record}`, row.record), visible(row.ref), ...part]);
  });
  return tableOf(t("changes.caption"), [record, ref, what, shown, there], cells, "changes");
}

/** The records of marked rows that have not changed. */
export function unchanged(marked, changes) {
  const records = new Set(changes.map(({ row }) => row.record));
  return marked.map(({ record }) => record).filter((record) => !records.has(record));
}

/** Says beside a list as it is now what of the marked rows has changed and is not marked any more; offers to mark it again. */
export function tellChanged(list, changes, isUnsent = false) {
  const again = changes.map(({ now }) => now).filter((now) => now && canBeConfirmed(now));
  // of an empty list nothing is seen but what is said above it
  quiet(list.part("panel-outcome"));
  const place = list.part(list.rows.length ? "panel-outcome" : "outcome");
  const button = made("button", { type: "button", class: "quiet" }, t("changes.again", { count: grouped(again.length) }));
  button.addEventListener("click", () => {
    list.markOnly([...list.marks, ...again.map(({ record }) => record)]);
    list.part("submit").focus();
  });
  const words = paragraph(`${isUnsent ? `${t("changes.unsent")} ` : ""}${plural("changes.told", changes.length)}`);
  say(place, "wrong", words, changesTable(changes), ...(again.length ? [button] : []));
}

/**
 * Reads the list anew, and compares what is marked with what is there by now: whether all of it is as it was shown. If it
 * is not, or the list cannot be read, that is said, and nothing may be sent.
 * @param {import("./list.js").RecordList} list
 * @param {object[]} marked
 * @param {string[]} [names] what is compared; without them also whether somebody else has confirmed it by now
 */
export async function isAsShown(list, marked, names) {
  const read = await list.read();
  if (!read.rows) {
    say(list.part("panel-outcome"), "wrong", paragraph(t("changes.unread")), ...told(read.answer));
    return false;
  }
  const changes = changed(marked, read.rows, names);
  if (!changes.length) return true;
  read.take(read.rows, unchanged(marked, changes));
  tellChanged(list, changes, true);
  return false;
}

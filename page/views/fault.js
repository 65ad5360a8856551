// What each fault means, for whoever looks after the office's machine: the table of docs/ERRORS.md.
import { byId, tableOf } from "../page.js";
import { all, t } from "../texts.js";

export function start() {
  const { number, meaning, do: what } = all().fault.columns;
  const rows = Object.entries(all().faults).map(([fault, row]) => [fault, row.meaning, row.do]);
  byId("fault-table").replaceChildren(tableOf(t("fault.caption"), [number, meaning, what], rows, "faults"));
}

/** Shows the table, whatever the address says besides. */
export function show() {}

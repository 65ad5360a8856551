// The file of the rows that were not taken: as the sheet has them, each with its reason, which names this file's cells.
import { plain } from "../sheet/columns.js";
import { SEPARATORS, letters, written } from "../sheet/rows.js";
import { t } from "../texts.js";
import { reasonOf } from "./import_rows.js";

/** The header is the first row of the file, and the rows follow it. */
const FIRST = 2;

/**
 * What is wrong with a cell, as it is in the file: the cell is where the file has it. A ref twice may be that of a row
 * which was taken and is not in the file: it is the row of the sheet then.
 */
function moved(found, number, numbers, columnOf, sheet) {
  const where = `${found.at === null ? "" : letters(columnOf(found.at))}${number}`;
  if (found.kind !== "twice") return { ...found, where };
  const row = numbers.get(found.values.row);
  if (row) return { ...found, where, values: { row } };
  return { ...found, where, kind: "twiceInSheet", values: { ...found.values, sheet } };
}

/**
 * The text of that file, in the sheet's own separator.
 * @param {string} sheet the sheet's name
 * @param {{ columns: { header: string[] }, separator: string }} found what was found of the sheet
 * @param {import("../sheet/turning.js").Turned[]} refused the rows that were not taken
 */
export function notTaken(sheet, { columns: { header }, separator }, refused) {
  // a column of reasons from the time before goes
  const reason = t("import.reason");
  const before = header.findIndex((cell) => plain(cell) === plain(reason));
  const width = Math.max(header.length, ...refused.map((row) => row.cells.length));
  const cells = (row) => Array.from({ length: width }, (_, at) => row[at] ?? "").filter((_, at) => at !== before);
  const columnOf = (at) => (before >= 0 && at > before ? at - 1 : at);
  const numbers = new Map(refused.map(({ number }, at) => [number, FIRST + at]));
  const inFile = (row) => (found) => moved(found, numbers.get(row.number), numbers, columnOf, sheet);
  const lines = refused.map((row) => [...cells(row.cells), reasonOf(row, inFile(row))]);
  return written([[...cells(header), reason], ...lines], SEPARATORS[separator]);
}

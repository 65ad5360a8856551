// A table as CSV for a spreadsheet program: no cell of it is taken for a formula there.
import { written } from "../sheet/rows.js";

/** With one of these a spreadsheet program takes a cell for a formula, or for the end of one; some are of full width. */
const FORMULA = /^[=+\-@\t\r\n\uff1d\uff0b\uff0d\uff20]/;

/** A cell as text that no spreadsheet program computes: what begins like a formula gets an apostrophe before it. */
export const harmless = (cell) => (FORMULA.test(cell) ? `'${cell}` : cell);

const textOf = (cell) => harmless(cell === null || cell === undefined ? "" : String(cell));

/**
 * @param {string[]} header the names of the columns
 * @param {any[][]} rows a cell may be null, which is empty
 * @param {string} separator
 * @returns {string} the file, as spreadsheet programs read it
 */
export const csvOf = (header, rows, separator) => written([header, ...rows].map((cells) => cells.map(textOf)), separator);

/** How many cells get an apostrophe. */
export const formulasIn = (rows) => rows.flat().filter((cell) => FORMULA.test(String(cell ?? ""))).length;

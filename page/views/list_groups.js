// A list by aggregations: the rows of each together, below its ref and title, as far as the catalogue has them.
import { records, tree } from "../catalogue.js";
import { link, made, plural } from "../page.js";
import { rowOf } from "../plain/catalogue.js";
import { grouped } from "../plain/lists.js";
import { visible } from "../plain/marks.js";
import { t } from "../texts.js";

const nameOf = (it) => t("forecast.close.name", { number: it.number, ref: visible(it.ref), title: visible(it.title) });

/** The row over those of an aggregation: what it is, how many they are, and a button that marks them. */
function headingOf(it, rows, width, mark) {
  const name = it ? link(`#catalogue?part=records&aggregation=${it.number}`, nameOf(it)) : t("deciding.noAggregation");
  const button = made("button", { type: "button", class: "quiet small" }, plural("deciding.markGroup", rows.length));
  button.addEventListener("click", () => mark(rows));
  const cell = made("th", { scope: "rowgroup", role: "rowheader", colspan: width }, made("span", { class: "in-group" }, name, button));
  return made("tr", { role: "row", class: "group" }, cell);
}

/**
 * How rows are put into groups, and the name of the aggregation of each; null if no catalogue is there.
 * @param {number} width how many cells a row has
 * @param {function(object[]): void} mark marks rows
 * @returns {Promise<{ groupsOf: function(object[]): { heading: HTMLElement, rows: object[] }[],
 *   nameOf: function(object): string } | null>}
 */
export async function byAggregation(width, mark) {
  const [index, order] = [await records(), await tree()];
  if (!index || !order) return null;
  const numberOf = ({ record }) => rowOf(index.rows, record)?.[3] ?? null;
  const aggregationOf = (number) => order.byNumber.get(number);
  return {
    groupsOf: (rows) => grouped(rows, numberOf).map(({ key, rows: own }) => ({ heading: headingOf(aggregationOf(key), own, width, mark), rows: own })),
    nameOf: (row) => (aggregationOf(numberOf(row)) ? nameOf(aggregationOf(numberOf(row))) : ""),
  };
}

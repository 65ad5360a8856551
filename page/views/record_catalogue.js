// What the catalogue knows of a record beside the office: its file and the others in it, its rule in words, its receipt.
import { isThere, part, records, tree } from "../catalogue.js";
import { link, made, paragraph } from "../page.js";
import { visible } from "../plain/marks.js";
import { t } from "../texts.js";
import { recordsOf, scheduleWords } from "./catalogue_tables.js";

/**
 * The values of facts that the catalogue has more of: the aggregation with its ref and title as a link to its records, the
 * class with its title, the schedule in words.
 * @param {object} record as the office reports it
 * @param {object | null} rule its schedule
 */
export async function factsOf(record, rule) {
  if (!isThere()) return {};
  const it = (await tree())?.byNumber.get(record.aggregation);
  const its = (await part("classes"))?.find(({ code }) => code === record.class);
  const name = it && t("forecast.close.name", { number: it.number, ref: visible(it.ref), title: visible(it.title) });
  return {
    ...(it && { aggregation: recordsOf(it.number, name) }),
    ...(its && { class: `${record.class} · ${visible(its.title)}` }),
    ...(rule && { schedule: `${record.schedule} · ${scheduleWords(rule)}` }),
  };
}

/** Links to the records before and after this one in its aggregation, as the catalogue lists them. */
export async function neighboursOf(record) {
  const index = isThere() ? await records() : null;
  const own = (index?.rows ?? []).filter((row) => row[3] === record.aggregation);
  const at = own.findIndex(([number]) => number === record.number);
  if (at < 0) return null;
  const to = (row, key) => row && link(`#record?number=${row[0]}`, t(key, { number: row[0], ref: visible(row[1]) }));
  const links = [to(own[at - 1], "record.before"), to(own[at + 1], "record.after")].filter(Boolean);
  if (!links.length) return null;
  return made("nav", { class: "neighbours", "aria-label": t("record.others") }, ...links.flatMap((it) => [it, " "]));
}

/** The receipt of a record that an archive has taken over, in words; nothing where none is known. */
export async function receiptOf(record) {
  const row = isThere() ? (await part("receipts"))?.find(([number]) => number === record.number) : undefined;
  return row ? [paragraph(t("record.receipt", { day: row[1], by: visible(row[2]) }))] : [];
}

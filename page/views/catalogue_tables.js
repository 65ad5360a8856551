// The lists of the catalogue: classes, schedules, holds and runs; links to its parts, and words that its views share.
import { grouped, link, made, tableOf } from "../page.js";
import { STATUSES } from "../plain/catalogue.js";
import { visible } from "../plain/marks.js";
import { t } from "../texts.js";
import { countLine, saveButton, targetsList } from "./targets.js";

const word = (name) => t(`catalogue.columns.${name}`);

export const recordLink = (number) => link(`#record?number=${number}`, number);

/** What the address of a part may ask for. */
const ASKED = ["part", "code", "text", "aggregation", "status", "class", "schedule", "year", "due", "state"];

/** The address of a part with what is looked for in it, and in which order. */
export function addressOf(asked) {
  const words = ASKED.filter((name) => asked[name]).map((name) => [name, asked[name]]);
  const sort = asked.sort || asked.isDown ? [["sort", `${asked.isDown ? "-" : ""}${asked.sort || "number"}`]] : [];
  return `#catalogue?${new URLSearchParams([...words, ...sort])}`;
}

export const recordsOf = (aggregation, words) => link(addressOf({ part: "records", aggregation }), words);

/** The number of an aggregation, which leads to its records. */
export function aggregationLink(number, tree) {
  const it = tree.byNumber.get(number);
  return it ? recordsOf(number, `${number} · ${visible(it.ref)}`) : String(number);
}

/** How many records of each status there are, as `here 4, ended 2`; of those that there are none of nothing is said. */
export function countsOf(counts) {
  const there = STATUSES.filter((status) => counts[status] > 0);
  const word = (status) => t(`catalogue.statuses.${status}`);
  const told = there.map((status) => t("catalogue.count", { status: word(status), count: grouped(counts[status]) }));
  return told.length ? told.join(", ") : t("catalogue.empty");
}

/** A period in words, as `7 years`. */
export function periodOf({ count, unit }) {
  return t(`catalogue.units.${unit}.${count === 1 ? "one" : "many"}`, { count });
}

export function offsetOf({ offset }) {
  const [, month] = /^from-month-(\d+)$/.exec(offset) ?? [];
  if (!month) return t(`catalogue.offsets.${offset}`);
  return t("catalogue.offsets.from", { month: t(`catalogue.months.${month}`) });
}

const triggerOf = ({ trigger }) => t(`catalogue.triggers.${trigger}`);
const actionOf = ({ action }) => t(`actions.${action}`);

/** A schedule in words, as for whoever chooses one. */
export const scheduleWords = (it) => [periodOf(it), triggerOf(it), actionOf(it)].join(" · ");

/** How many targets there are, then each of them, once the lists that have its ref and title are read. */
function targetsOf(hold) {
  const place = made("div", {}, countLine(hold.targets));
  if (!hold.targets.length) return place;
  place.setAttribute("aria-busy", "true");
  targetsList(hold.targets).then((list) => {
    place.append(list, saveButton(hold));
    place.removeAttribute("aria-busy");
  });
  return place;
}

/** The code of a class or a schedule, which leads to it alone; no line breaks it. */
function codeLink(part, code) {
  const it = link(addressOf({ part, code }), code);
  it.className = "day";
  return it;
}

const holdLink = ({ code }) => link(`#holds?code=${code}`, code);
const runLink = ({ number, closed }) => link(`#${closed ? "certificate" : "run"}?number=${number}`, number);
/** A count, or nothing for a run that was closed since the catalogue. */
const counted = (count) => (count === null ? "" : grouped(count));
const stateOf = (run) => t(run.closed ? "catalogue.closedRun" : "catalogue.openRun");

/** The lists: their columns, and the cells of a row. */
const LISTS = {
  classes: { columns: ["code", "title", "schedule"], cells: (it) => [codeLink("classes", it.code), visible(it.title), codeLink("schedules", it.schedule)] },
  schedules: {
    columns: ["code", "trigger", "period", "offset", "action"],
    cells: (it) => [codeLink("schedules", it.code), triggerOf(it), periodOf(it), offsetOf(it), actionOf(it)],
  },
  holds: {
    columns: ["code", "reason", "placed", "by", "lifted", "targets"],
    cells: (it) => {
      const lifted = it.lifted ?? t("catalogue.inForce");
      return [holdLink(it), visible(it.reason), it.placed, visible(it.by), lifted, targetsOf(it)];
    },
  },
  runs: {
    columns: ["run", "day", "by", "state", "ended", "sent", "skipped"],
    cells: (it) => [runLink(it), it.day, visible(it.by), stateOf(it), ...[it.ended, it.sent, it.skipped].map(counted)],
  },
};

export function listOf(part, rows, caption = t(`catalogue.parts.${part}`)) {
  const { columns, cells } = LISTS[part];
  return tableOf(caption, columns.map(word), rows.map(cells), `found ${part}`);
}

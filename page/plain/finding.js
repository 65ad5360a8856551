// What is found of the catalogue's records: by words, status, class, schedule, year and due day, in any order.
import { folded, positionOf, positions } from "./catalogue.js";
import { numberOfDay } from "./details.js";

/**
 * What is asked for; an empty text asks for nothing.
 * @typedef {object} Asked
 * @property {string} text words that must all be in the ref or the title
 * @property {string} status
 * @property {string} aggregation the number of one
 * @property {string} class
 * @property {string} schedule
 * @property {string} year that in which it originated
 * @property {string} due a day, by which it is due, or NO_DUE
 */

/** Asks for records without a due day. */
export const NO_DUE = "none";

/** The columns that a list of records may be ordered by. */
export const RECORD_COLUMNS = ["number", "ref", "title", "aggregation", "class", "schedule", "due", "status"];

/** The columns of texts, which are ordered as they are searched. */
export const TEXTS = {
  ref: ([, ref]) => ref,
  title: ([, , title]) => title,
};

/** What a record is ordered by; other columns are of the details. */
const KEYS = {
  number: ([number]) => number,
  ref: (row) => folded(TEXTS.ref(row)),
  title: (row) => folded(TEXTS.title(row)),
  aggregation: ([, , , aggregation]) => aggregation,
  status: ([, , , , status]) => status,
};

/** Whether a question asks for something that only the details have. */
export const wantsDetails = ({ class: code, schedule, year, due }) => Boolean(code || schedule || year || due);

/** Whether ordering by a column wants the details. */
export const isOfDetails = (column) => ["class", "schedule", "due"].includes(column);

/** A function of a position that says whether the details are as they are asked for. */
function detailsTaker(details, { class: code, schedule, year, due }) {
  const { columns, codes } = details;
  const [ofClass, ofSchedule] = [codes.class.indexOf(code), codes.schedule.indexOf(schedule)];
  const [first, last] = year ? [numberOfDay(`${year}-01-01`), numberOfDay(`${year}-12-31`)] : [0, 0];
  const until = due && due !== NO_DUE ? numberOfDay(due) : 0;
  return (at) => {
    if (!details.has(at)) return false;
    if (code && columns.class[at] !== ofClass) return false;
    if (schedule && columns.schedule[at] !== ofSchedule) return false;
    if (year && !(columns.originated[at] >= first && columns.originated[at] <= last)) return false;
    const day = columns.due[at] ?? null;
    if (due === NO_DUE) return day === null;
    return !due || (day !== null && day <= until);
  };
}

/** A function of a position that says whether what is asked for beside the words takes it. */
function takerOf({ rows }, details, asked) {
  const { status, aggregation } = asked;
  const within = Number(aggregation);
  const ofDetails = wantsDetails(asked) ? detailsTaker(details, asked) : () => true;
  return (at) => (!status || rows[at][4] === status) && (!aggregation || rows[at][3] === within) && ofDetails(at);
}

/** The place of each key among all keys, which are texts or numbers; null comes after all others. */
function ranksOf(keys) {
  const there = [...new Set(keys)].filter((key) => key !== null && key !== undefined);
  // without a function a sort of texts is much faster
  const sorted = typeof there[0] === "number" ? there.sort((one, other) => one - other) : there.sort();
  const ranks = new Map(sorted.map((key, at) => [key, at]));
  return { count: sorted.length + 1, ranks: keys.map((key) => ranks.get(key) ?? sorted.length) };
}

/**
 * The positions of all keys in their order; equal ones stay as they are.
 * @param {(string | number | null)[]} keys
 * @returns {Uint32Array}
 */
export function orderOf(keys) {
  const { count, ranks } = ranksOf(keys);
  const starts = new Uint32Array(count + 1);
  for (const rank of ranks) starts[rank + 1] += 1;
  for (let rank = 1; rank <= count; rank += 1) starts[rank] += starts[rank - 1];
  const order = new Uint32Array(keys.length);
  ranks.forEach((rank, at) => {
    order[starts[rank]] = at;
    starts[rank] += 1;
  });
  return order;
}

/** The order of lines of text, in which each row is one. */
export const lineOrder = (lines) => orderOf(folded(lines).split("\n"));

/** The order of all records by a column. */
export function recordOrder({ rows }, details, column) {
  if (!isOfDetails(column)) return orderOf(rows.map(KEYS[column]));
  // codes have their places in the order of the codes already
  return orderOf(details.columns[column].map((key) => key ?? null));
}

/** Positions in an order of all rows, or from its end. */
export function inOrder(found, order, isDown) {
  if (!order) return isDown ? [...found].reverse() : found;
  const isFound = new Uint8Array(order.length);
  for (const at of found) isFound[at] = 1;
  const sorted = [];
  const take = (at) => isFound[at] && sorted.push(at);
  if (isDown) for (let place = order.length - 1; place >= 0; place -= 1) take(order[place]);
  else for (let place = 0; place < order.length; place += 1) take(order[place]);
  return sorted;
}

/** Puts the one whose number is asked for outright first. */
function withNumber(found, { rows }, asked, takes) {
  const place = /^[1-9]\d*$/.test(asked.text) ? positionOf(rows, Number(asked.text)) : -1;
  if (place < 0 || !takes(place)) return found;
  return [place, ...found.filter((at) => at !== place)];
}

/**
 * The positions of all records that are found, in their order; the one whose number is asked for comes first.
 * @param {import("./catalogue.js").Index} index
 * @param {import("./details.js").Details | null} details
 * @param {Asked} asked
 * @param {Uint32Array | null} order
 * @param {boolean} isDown
 * @returns {number[]}
 */
export function findRecords(index, details, asked, order, isDown) {
  const takes = takerOf(index, details, asked);
  const found = inOrder(positions(index, asked.text, takes), order, isDown);
  return withNumber(found, index, asked, takes);
}

/** The same of aggregations, by words, class in effect and whether they are open. */
export function findAggregations(index, asked, classOf, order, isDown) {
  const { rows } = index;
  const takes = (at) =>
    (!asked.state || (asked.state === "open") === (rows[at].closed === null)) && (!asked.class || classOf(rows[at]) === asked.class);
  const found = inOrder(positions(index, asked.text, takes), order, isDown);
  return withNumber(found, index, asked, takes);
}

export const AGGREGATION_COLUMNS = ["number", "ref", "title", "class", "closed"];

/** The order of all aggregations by a column; an open one comes after all that are closed. */
export function aggregationOrder({ rows }, column, classOf) {
  const keys = {
    number: (it) => it.number,
    ref: (it) => folded(it.ref),
    title: (it) => folded(it.title),
    class: classOf,
    closed: (it) => it.closed,
  };
  return orderOf(rows.map(keys[column]));
}

// What is found in the catalogue's records or aggregations: its filters, its order, its table and what is marked of it.
import { aggregations, aggregationsBy, details, makeReady, part, records, recordsBy, tree, years } from "../catalogue.js";
import { byId, grouped, made, save } from "../page.js";
import { STATUSES, above, classOf, numberIn, positionOf, rowOf } from "../plain/catalogue.js";
import { csvOf, formulasIn } from "../plain/csv.js";
import { NO_DETAILS } from "../plain/details.js";
import {
  AGGREGATION_COLUMNS, NO_DUE, RECORD_COLUMNS, findAggregations, findRecords, isOfDetails, wantsDetails,
} from "../plain/finding.js";
import { visible } from "../plain/marks.js";
import { Selection } from "../plain/selection.js";
import { t } from "../texts.js";
import { aggregationLink, countsOf, recordLink, recordsOf } from "./catalogue_tables.js";
import { FoundTable } from "./found_table.js";

/** So many rows are shown at first, so many more each time that more are asked for, and so many at once at most. */
export const FIRST = 50;
export const MORE = 200;
export const MOST = 20000;

/** The filters of each part, by their names in the address. */
export const FILTERS = {
  records: ["status", "class", "schedule", "year", "due"],
  aggregations: ["state", "class"],
};

const option = (value, text) => made("option", { value }, text);
const rowsOf = async (name) => (await part(name)) ?? [];

/** The choices of each filter; those that are more than a page has are of the catalogue. */
const CHOICES = {
  status: async () => STATUSES.map((status) => option(status, t(`catalogue.statuses.${status}`))),
  class: async () => (await rowsOf("classes")).map(({ code, title }) => option(code, `${code} · ${visible(title)}`)),
  schedule: async () => (await rowsOf("schedules")).map(({ code }) => option(code, code)),
  year: async () => ((await years()) ?? []).map((year) => option(year, year)),
  due: async () => [option("by", t("catalogue.dueBy")), option(NO_DUE, t("catalogue.noDue"))],
  state: async () => ["open", "closed"].map((state) => option(state, t(`catalogue.states.${state}`))),
};

/** Fills the choices of a filter, and chooses what is asked for. */
export async function fillChoices(name, select, wanted) {
  // what is asked for is chosen at once, and the others come once they are read
  if (select.value !== wanted) select.replaceChildren(option("", t("catalogue.all")), ...(wanted ? [option(wanted, wanted)] : []));
  select.value = wanted;
  const options = await CHOICES[name]();
  if (select.value !== wanted) return;
  select.replaceChildren(option("", t("catalogue.all")), ...options);
  // a choice that this catalogue does not have is still told
  if (wanted && !options.some(({ value }) => value === wanted)) select.append(option(wanted, wanted));
  select.value = wanted;
}

/** Cells of a record; the details may not be there yet. */
function recordCells({ row, detail }, order) {
  const [number, ref, title, aggregation, status] = row;
  const { class: code, schedule, due } = detail;
  const state = t(`catalogue.statuses.${status}`);
  return [recordLink(number), visible(ref), visible(title), aggregationLink(aggregation, order), code ?? "", schedule ?? "", due ?? "", state];
}

function aggregationCells(it, order) {
  const within = above(order, it).map(({ ref }) => visible(ref)).join(" › ");
  return [recordsOf(it.number, it.number), visible(it.ref), visible(it.title), within, classOf(order, it), it.closed ?? "", countsOf(order.totals.get(it.number))];
}

/** What both parts share: the marks, the table, what is found. */
class Found {
  found = [];
  #table = null;
  #asked = 0;

  constructor(name, changed) {
    this.name = name;
    this.marks = new Selection(changed);
  }

  /** The table, once the words are there. */
  tableFor(asked, sortBy) {
    this.#table ??= new FoundTable({ ...this.kind(), part: this.name, marks: this.marks, sortBy });
    this.#table.tellOrder(asked.sort, asked.isDown);
    return this.#table;
  }

  get table() {
    return this.#table;
  }

  /** Begins to find something: a function that says whether nothing else was asked for since then. */
  begun() {
    this.#asked += 1;
    const mine = this.#asked;
    return () => mine === this.#asked;
  }

  /** The numbers of all that is found. */
  numbers() {
    return this.found.map((at) => numberIn(this.rows[at]));
  }

  /** How many of these are marked. */
  get marked() {
    return this.marks.size ? this.marks.among(this.numbers()) : 0;
  }

  /** How many rows are in the table; where nothing is found there is none. */
  get shown() {
    return this.found.length ? (this.#table?.shown ?? 0) : 0;
  }
}

export class FoundRecords extends Found {
  #order = null;

  constructor(changed) {
    super("records", changed);
  }

  kind() {
    return {
      columns: RECORD_COLUMNS,
      sorted: RECORD_COLUMNS,
      rowsAt: (positions) => this.rowsAt(positions),
      cells: (it) => recordCells(it, this.#order),
      number: ({ row }) => row[0],
    };
  }

  /** The rows at these positions. */
  rowsAt(positions) {
    return positions.map((at) => ({ row: this.rows[at], detail: this.details?.at(at) ?? NO_DETAILS }));
  }

  /**
   * Finds what is asked for: whether it could, and nothing else was asked for meanwhile. What needs no details is found
   * before they are there.
   */
  async find(asked) {
    const isWanted = this.begun();
    const index = await records();
    this.#order = await tree();
    const waits = wantsDetails(asked) || isOfDetails(asked.sort);
    const known = waits ? await details() : null;
    if (!index || !this.#order || (waits && !known)) return false;
    if (asked.text) await makeReady(index);
    const order = await recordsBy(asked.sort);
    if (!isWanted()) return false;
    this.details = known ?? this.details ?? null;
    this.rows = index.rows;
    this.found = findRecords(index, known, asked, order, asked.isDown);
    return true;
  }

  /** Has the details read, if they are not yet: whether other ones are there than before. */
  async readDetails() {
    const before = this.details;
    this.details = await details();
    return this.details !== before;
  }

  within(asked) {
    return this.#order.byNumber.get(Number(asked.aggregation));
  }

  total() {
    return this.rows.length;
  }

  async items() {
    const rows = (await part("records")) ?? [];
    return this.marks.numbers.filter((number) => rowOf(rows, number)).map((number) => {
      const [, ref, title, , status] = rowOf(rows, number);
      return { kind: "record", number, ref, title, status };
    });
  }

  /** The rows of a file, of these numbers. */
  async cells(numbers) {
    const rows = (await part("records")) ?? [];
    const known = await details();
    const order = await tree();
    const header = ["record", "ref", "title", "originated", "added", "aggregation", "aggregationRef", "class", "schedule", "length", "due", "status"];
    const cells = numbers.map((number) => {
      const place = positionOf(rows, number);
      const [, ref, title, aggregation, status] = rows[place];
      const it = known?.at(place) ?? NO_DETAILS;
      const within = order.byNumber.get(aggregation)?.ref;
      return [number, ref, title, it.originated, it.added, aggregation, within, it.class, it.schedule, it.length, it.due, t(`catalogue.statuses.${status}`)];
    });
    return { header, cells };
  }
}

export class FoundAggregations extends Found {
  #order = null;

  constructor(changed) {
    super("aggregations", changed);
  }

  kind() {
    return {
      columns: ["number", "ref", "title", "within", "class", "closed", "counts"],
      sorted: AGGREGATION_COLUMNS,
      rowsAt: (positions) => this.rowsAt(positions),
      cells: (it) => aggregationCells(it, this.#order),
      number: ({ number }) => number,
    };
  }

  rowsAt(positions) {
    return positions.map((at) => this.rows[at]);
  }

  async find(asked) {
    const isWanted = this.begun();
    const index = await aggregations();
    this.#order = await tree();
    if (!index || !this.#order) return false;
    const order = await aggregationsBy(asked.sort);
    if (!isWanted()) return false;
    this.rows = index.rows;
    const classIn = (it) => classOf(this.#order, it);
    this.found = findAggregations(index, asked, classIn, order, asked.isDown);
    return true;
  }

  get order() {
    return this.#order;
  }

  total() {
    return this.rows.length;
  }

  async items() {
    const rows = (await part("aggregations")) ?? [];
    return this.marks.numbers.filter((number) => rowOf(rows, number)).map((number) => {
      const { ref, title, closed } = rowOf(rows, number);
      return { kind: "aggregation", number, ref, title, closed };
    });
  }

  async cells(numbers) {
    const order = await tree();
    const header = ["aggregation", "ref", "title", "parent", "within", "class", "closed", ...STATUSES];
    const cells = numbers.map((number) => {
      const it = order.byNumber.get(number);
      const counts = order.totals.get(number);
      const within = above(order, it).map(({ ref }) => ref).join(" › ");
      return [number, it.ref, it.title, it.parent, within, classOf(order, it), it.closed, ...STATUSES.map((status) => counts[status])];
    });
    return { header, cells };
  }
}

/** Saves rows of a part as CSV, and returns what is said of that. */
export async function saveFound(found, numbers) {
  const { header, cells } = await found.cells(numbers);
  const words = header.map((name) => (STATUSES.includes(name) ? t(`catalogue.statuses.${name}`) : t(`csv.columns.${name}`)));
  const file = t("csv.file", { name: found.name, day: byId("catalogue-moment").querySelector("time")?.dateTime.slice(0, 10) ?? "" });
  save(file, csvOf(words, cells, t("csv.separator")), "text/csv");
  return t("csv.saved", { file, count: grouped(cells.length), formulas: formulasIn(cells) });
}

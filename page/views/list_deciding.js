// What helps to decide about a list, as Due and Overdue: titles, a CSV, a list for approval, and deeds with what is marked.
import { made, save } from "../page.js";
import { csvOf, formulasIn } from "../plain/csv.js";
import { CONFIRMED_FOR, valueOf } from "../plain/lists.js";
import { t } from "../texts.js";
import { printApproval } from "./approval.js";
import { isAsShown } from "./changes.js";
import { byAggregation } from "./list_groups.js";
import { MarkedBar } from "./marked.js";
import { anyTitleOf, titleOf, titleSwitch } from "./titles.js";

/** What a list has no rows for, as a receipt of what was sent, and what it has a form of its own for. */
const EXCEPT = ["receipt", "confirm"];

/** The columns of a file or of paper: those of the list, with the title after the ref, and then these. */
const columnsOf = (columns, more) => columns.flatMap((name) => (name === "ref" ? ["ref", "title", ...more] : [name]));

export class Deciding {
  #list;
  #switch;
  #bar;
  #turn = 0;
  /** Whether the list is shown by aggregations, and how rows get into these. */
  #grouping = null;
  #groups = null;

  /** @param {import("./list.js").RecordList} list */
  constructor(list) {
    this.#list = list;
  }

  get #name() {
    return this.#list.kind.name;
  }

  /** Adds all of it to the view, once the list's parts are in the page. */
  start() {
    const list = this.#list;
    const name = this.#name;
    this.#switch = titleSwitch(`${name}-titles`, () => this.shown());
    const button = (part, work) => {
      const it = made("button", { type: "button", id: `${name}-${part}`, class: "quiet" }, t(`deciding.${part}`));
      it.addEventListener("click", work);
      return it;
    };
    const all = button("mark-all", () => list.markOnly([...list.marks, ...list.shown.map(({ record }) => record)]));
    const csv = button("csv", () => this.#save(list.shown));
    const paper = button("approval", () => this.#approve());
    list.part("unmark").before(all);
    this.#grouping = this.#groupSwitch();
    list.part("print").after(csv, paper, this.#switch.node, this.#grouping.parentElement);
    this.#bar = new MarkedBar({
      name,
      kind: "record",
      except: EXCEPT,
      items: () => this.#items(),
      // with an empty list nothing of it is seen but what is said above it
      answer: () => list.part(list.rows.length ? "answer" : "outcome"),
      save: () => this.#save(list.markedRows()),
      before: (items) => this.#isAsShown(items),
      after: (numbers) => this.#after(numbers),
    });
    this.#bar.node.addEventListener("chosen", ({ detail }) => (list.part("confirm").hidden = Boolean(detail)));
    list.part("confirm").before(this.#bar.choice);
    list.part("panel").append(this.#bar.node);
  }

  /** A switch that shows the list by aggregations. */
  #groupSwitch() {
    const box = made("input", { type: "checkbox", id: `${this.#name}-group` });
    box.addEventListener("change", () => this.#group());
    return made("div", { class: "titles-switch" }, box, made("label", { for: box.id }, t("deciding.group"))).firstChild;
  }

  /** Shows the list by aggregations if it is to be so and a catalogue is there. */
  async #group() {
    const list = this.#list;
    const mark = (rows) => list.markOnly([...list.marks, ...rows.map(({ record }) => record)]);
    const groups = this.#grouping.checked ? await byAggregation(list.kind.columns.length + 1, mark) : null;
    // it may have been switched off meanwhile
    this.#groups = this.#grouping.checked ? groups : null;
    list.group(this.#groups?.groupsOf ?? null);
  }

  async #items() {
    const title = await anyTitleOf();
    const ofRow = ({ record, ref, action }) => ({ kind: "record", number: record, ref, title: title(record), action });
    return this.#list.markedRows().map(ofRow);
  }

  #isAsShown(items) {
    const numbers = new Set(items.map(({ number }) => number));
    const rows = this.#list.markedRows().filter(({ record }) => numbers.has(record));
    return isAsShown(this.#list, rows, CONFIRMED_FOR);
  }

  /** Takes marks off and reads the list anew. */
  async #after(numbers) {
    const list = this.#list;
    const done = new Set(numbers);
    list.markOnly([...list.marks].filter((record) => !done.has(record)));
    await list.open(list.question, true);
  }

  /** Puts the titles beside the refs of what is shown, or takes them off. */
  async shown() {
    const mine = ++this.#turn;
    const title = await titleOf();
    this.#switch.renew();
    this.#grouping.parentElement.hidden = this.#switch.node.hidden;
    if (mine === this.#turn) this.#list.tellTitles(title);
  }

  /** Says in the bar what a deed would do by now. */
  marked() {
    this.#bar?.tell();
  }

  async #cells(rows) {
    const title = await anyTitleOf();
    const columns = columnsOf(this.#list.kind.columns, this.#groups ? ["aggregation"] : []);
    const cell = (row) => (name) => {
      if (name === "title") return title(row.record) ?? "";
      if (name === "aggregation") return this.#groups.nameOf(row);
      if (name === "action") return t(`actions.${row.action}`);
      if (name === "confirmed") return t(`due.${valueOf(row, name)}`);
      return valueOf(row, name);
    };
    return { columns, cells: rows.map((row) => columns.map(cell(row))) };
  }

  #word(name) {
    return ["title", "aggregation"].includes(name) ? t(`catalogue.columns.${name}`) : t(`${this.#name}.columns.${name}`);
  }

  async #save(rows) {
    const list = this.#list;
    const { columns, cells } = await this.#cells(rows);
    const file = t("csv.file", { name: this.#name, ...list.question });
    save(file, csvOf(columns.map((name) => this.#word(name)), cells, t("csv.separator")), "text/csv");
    list.tell(t("csv.saved", { file, count: cells.length, formulas: formulasIn(cells) }));
  }

  /** Prints what is marked, or all that is shown, with the lines for those who approve it. */
  async #approve() {
    const list = this.#list;
    const isMarked = list.marks.size > 0;
    const rows = isMarked ? list.shown.filter(({ record }) => list.marks.has(record)) : list.shown;
    const { columns, cells } = await this.#cells(rows);
    printApproval({
      question: list.question,
      title: t(`${this.#name}.title`),
      caption: list.part("caption").textContent,
      isMarked,
      filter: list.kind.filters.filter((name) => list.filter[name]).map((name) => [this.#word(name), this.#chosen(name)]),
      rows,
      names: columns,
      columns: columns.map((name) => this.#word(name)),
      cells,
    });
  }

  /** A filter's choice in its own words, without its count. */
  #chosen(name) {
    const { selectedOptions } = this.#list.part(name);
    return (selectedOptions[0]?.textContent ?? "").replace(/ \(\d+\)$/, "");
  }
}

// The table of what is found: a box a row, headings that sort, the first rows at once and all others if they are wanted.
import { label, made } from "../page.js";
import { t } from "../texts.js";

/** So many rows are in one group. A browser lays out only the groups that are in sight (catalogue.css), and all to print. */
const GROUP = 100;
/** So many groups come at a time, once all rows are wanted. */
const MORE = 10;

const cell = (content, at) =>
  at === 0 ? made("th", { scope: "row", role: "rowheader" }, content) : made("td", { role: "cell" }, content);

/**
 * @typedef {object} Found
 * @property {string} part the part of the catalogue, which is the table's class too
 * @property {string[]} columns by name
 * @property {string[]} sorted those that the rows may be ordered by
 * @property {function(number[]): any[]} rowsAt the rows at these positions
 * @property {function(any): any[]} cells the cells of a row
 * @property {function(any): number} number
 * @property {import("../plain/selection.js").Selection} marks
 * @property {function(string): void} sortBy is called with the column whose heading is pressed
 */

export class FoundTable {
  #kind;
  #positions = [];
  #turn = 0;

  /** @param {Found} kind */
  constructor(kind) {
    this.#kind = kind;
    this.head = made("tr", { role: "row" }, ...this.#headings());
    const caption = made("caption", {}, t(`catalogue.parts.${kind.part}`));
    this.table = made("table", { class: `cards rowed ${kind.part}`, role: "table" }, caption, made("thead", { role: "rowgroup" }, this.head));
    label(this.table, [t("due.columns.mark"), ...kind.columns.map((name) => t(`catalogue.columns.${name}`))]);
    this.table.addEventListener("change", ({ target }) => {
      if (target.type === "checkbox") kind.marks.set(Number(target.dataset.number), target.checked);
    });
    this.shown = 0;
  }

  #headings() {
    const { columns, sorted, sortBy } = this.#kind;
    const heading = (name) => {
      const word = t(`catalogue.columns.${name}`);
      if (!sorted.includes(name)) return made("th", { scope: "col", role: "columnheader" }, word);
      const button = made("button", { type: "button", title: t("due.sortBy", { column: word }) }, word);
      button.addEventListener("click", () => sortBy(name));
      return made("th", { scope: "col", role: "columnheader", "data-column": name }, button);
    };
    return [made("th", { scope: "col", role: "columnheader" }, t("due.columns.mark")), ...columns.map(heading)];
  }

  /** Says at the headings by which column the rows are ordered. */
  tellOrder(column, isDown) {
    for (const head of this.head.children) {
      if (head.dataset.column === (column || "number")) head.setAttribute("aria-sort", isDown ? "descending" : "ascending");
      else head.removeAttribute("aria-sort");
    }
  }

  #nodeOf(row) {
    const { number, cells, marks } = this.#kind;
    const own = number(row);
    const box = made("input", { type: "checkbox", "data-number": own, "aria-label": t("marked.markOne", { number: own }) });
    box.checked = marks.has(own);
    return made("tr", { role: "row" }, made("td", { role: "cell" }, box), ...cells(row).map(cell));
  }

  /** Ticks the boxes of what is marked, and no others. */
  tick() {
    for (const box of this.table.querySelectorAll("tbody input")) box.checked = this.#kind.marks.has(Number(box.dataset.number));
  }

  /** Puts in groups up to so many rows. */
  #fill(most) {
    while (this.shown < Math.min(most, this.#positions.length)) {
      const next = this.#kind.rowsAt(this.#positions.slice(this.shown, Math.min(this.shown + GROUP, most)));
      const group = made("tbody", { role: "rowgroup" }, ...next.map((row) => this.#nodeOf(row)));
      group.style.setProperty("--rows", String(next.length));
      this.table.append(group);
      this.shown += next.length;
    }
  }

  /** Shows the first of the rows at these positions. */
  show(positions, most) {
    this.#turn += 1;
    this.#positions = positions;
    this.shown = 0;
    for (const group of [...this.table.tBodies]) group.remove();
    this.#fill(most);
    this.table.removeAttribute("aria-busy");
  }

  /** Puts in rows up to so many bit by bit, so that the page answers meanwhile; `told` is called after each bit. */
  fillTo(most, told) {
    const mine = ++this.#turn;
    const step = () => {
      if (mine !== this.#turn) return;
      this.#fill(Math.min(most, this.shown + GROUP * MORE));
      const isDone = this.shown >= Math.min(most, this.#positions.length);
      this.table.toggleAttribute("aria-busy", !isDone);
      told();
      if (!isDone) setTimeout(step);
    };
    step();
  }

  /** Puts in rows up to so many at once, as to be printed. */
  finish(most) {
    this.#turn += 1;
    this.table.removeAttribute("aria-busy");
    this.#fill(most);
  }
}

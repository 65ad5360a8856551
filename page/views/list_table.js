// The table of a list. Each row is made once and then put in order, left out and put in again. Of a long list the rows
// that are seen first come first, and the others at once after them, bit by bit, so that the page answers meanwhile.
import { byId, label, made } from "../page.js";
import { canBeConfirmed } from "../plain/lists.js";
import { visible } from "../plain/marks.js";
import { t } from "../texts.js";

// So many rows are in one group. A browser lays out only the groups that are in sight (office.css), and all to print.
const GROUP = 100;
// so many rows come before anything else, and so many at a time after them: a high window shows fewer than the first ones
const FIRST = 50;
const MORE = 2000;
// so many groups stay in the page while another view is seen
const KEPT = 2;

const cell = (name, ...children) => made(name, { role: name === "th" ? "rowheader" : "cell" }, ...children);

/** The row that is copied: a box to mark it, and a cell a column. */
function pattern(columns) {
  const content = (name) => (name === "held" ? [] : ["-"]);
  const ofColumn = (name) => (name === "record" ? cell("th", made("a", {}, "-")) : cell("td", ...content(name)));
  const cells = columns.map(ofColumn);
  cells[0].setAttribute("scope", "row");
  return made("tr", { role: "row" }, cell("td", made("input", { type: "checkbox" })), ...cells);
}

const words = new Map();

/** A word of the page, looked up once. */
function word(key) {
  if (!words.has(key)) words.set(key, t(key));
  return words.get(key);
}

/** Puts a title behind the ref in its cell, or takes it off. */
function fillTitle(cell, title) {
  if (cell.childNodes.length > 1) cell.lastChild.remove();
  if (title) cell.append(made("span", { class: "of-ref" }, visible(title)));
}

/** How the cell of a column is filled; any other one has the member as it is. */
const FILLS = {
  record(cell, row) {
    cell.firstChild.setAttribute("href", `#record?number=${row.record}`);
    cell.firstChild.firstChild.data = row.record;
  },
  ref(cell, row, titleOf) {
    cell.firstChild.data = visible(row.ref);
    fillTitle(cell, titleOf?.(row.record));
  },
  action(cell, row) {
    cell.firstChild.data = word(`actions.${row.action}`);
  },
  held(cell, row) {
    if (row.held !== null) cell.append(made("a", { href: `#holds?code=${row.held}` }, row.held));
  },
  confirmed(cell, row) {
    cell.firstChild.data = word(row.confirmed ? "due.yes" : "due.no");
  },
};

function fillMark(cell, row, marked) {
  // it is marked for other deeds than a confirmation
  if (!canBeConfirmed(row)) cell.append(made("span", { class: "hint" }, word("due.noMark")));
  const box = cell.firstChild;
  if (marked) box.checked = true;
  box.setAttribute("aria-label", word("due.markRow").replace("{record}", row.record));
}

/** The rows in pieces, each for one group of the table; a heading is over the first piece of its rows. */
function piecesOf(groups) {
  const pieces = [];
  for (const { heading, rows } of groups) {
    for (let at = 0; at < rows.length; at += pieces.at(-1).rows.length) {
      const size = pieces.length ? GROUP : FIRST;
      pieces.push({ heading: at === 0 ? heading : undefined, rows: rows.slice(at, at + size) });
    }
  }
  return pieces;
}

/** The actions of what is due, as CSS has them: their column has room for each of their words. */
const actionWords = () => JSON.stringify(["destroy", "transfer", "review"].map((it) => word(`actions.${it}`)).join(" "));

const boxOf = (row) => row.firstChild.querySelector("input");

/** The record of a box. */
export const recordOf = (box) => Number(box.closest("tr").cells[1].textContent);

export class ListTable {
  /** The rows that are made, by record; which records are marked; the pieces that are not in the table yet. */
  #nodes = new Map();
  #isMarked = () => false;
  #wanting = [];
  #copied;
  #fills;
  #titleOf = null;
  #refAt;

  /** A table of the view of this name. `sortBy` is called with the column whose heading is pressed. */
  constructor(name, columns, sortBy) {
    this.table = byId(`${name}-table`);
    this.head = byId(`${name}-head`);
    this.#copied = pattern(columns);
    // the box comes first
    this.#refAt = columns.indexOf("ref") + 1;
    const plain = (column) => (cell, row) => (cell.firstChild.data = row[column]);
    this.#fills = columns.map((column) => FILLS[column] ?? plain(column));
    this.#tellHead(name, columns, sortBy);
  }

  /** The headings, each with a button that sorts by its column. */
  #tellHead(name, columns, sortBy) {
    const wordOf = (column) => t(`${name}.columns.${column}`);
    const sorting = columns.map((column) => {
      const title = t("due.sortBy", { column: wordOf(column) });
      const button = made("button", { type: "button", title }, wordOf(column));
      button.addEventListener("click", () => sortBy(column));
      return made("th", { scope: "col", role: "columnheader", "data-column": column }, button);
    });
    this.head.replaceChildren(made("th", { scope: "col", role: "columnheader" }, t("due.columns.mark")), ...sorting);
    label(this.table, [t("due.columns.mark"), ...columns.map(wordOf)]);
    this.table.style.setProperty("--actions", actionWords());
  }

  #fillRow(node, row) {
    const [mark, ...cells] = node.children;
    fillMark(mark, row, this.#isMarked(row.record));
    cells.forEach((cell, at) => this.#fills[at](cell, row, this.#titleOf));
    return node;
  }

  #nodeOf(row) {
    const { record } = row;
    if (!this.#nodes.has(record)) this.#nodes.set(record, this.#fillRow(this.#copied.cloneNode(true), row));
    return this.#nodes.get(record);
  }

  /** Forgets the rows of the list before. Whether a record of the new one is marked is asked of `marked`. */
  begin(marked) {
    this.#nodes = new Map();
    this.#isMarked = marked;
  }

  /** Puts titles beside the refs of all rows, also of those that are made later; `titleOf` is null where none is shown. */
  tellTitles(titleOf) {
    if (titleOf === null && this.#titleOf === null) return;
    this.#titleOf = titleOf;
    for (const [record, node] of this.#nodes) fillTitle(node.cells[this.#refAt], titleOf?.(record));
  }

  /** Ticks the boxes of the records that are marked, and no others. */
  tick() {
    for (const [record, node] of this.#nodes) {
      const box = boxOf(node);
      if (box) box.checked = this.#isMarked(record);
    }
  }

  /** Says at the headings by which column the rows are sorted. */
  tellOrder(column, down) {
    for (const head of this.head.children) {
      if (head.dataset.column === column) head.setAttribute("aria-sort", down ? "descending" : "ascending");
      else head.removeAttribute("aria-sort");
    }
  }

  /** Puts in pieces, until these have so many rows. */
  #fill(most) {
    let [count, filled] = [0, 0];
    for (; count < this.#wanting.length && filled < most; count += 1) {
      const { heading, rows } = this.#wanting[count];
      const nodes = rows.map((row) => this.#nodeOf(row));
      const group = made("tbody", { role: "rowgroup" }, ...(heading ? [heading] : []), ...nodes);
      // so many are out of sight until it is laid out (office.css)
      group.style.setProperty("--rows", String(group.rows.length));
      this.table.append(group);
      filled += rows.length;
    }
    this.#wanting.splice(0, count);
    this.table.toggleAttribute("aria-busy", this.#wanting.length > 0);
  }

  /** Puts the other rows in, unless another list or order has come meanwhile. */
  #fillLater(these) {
    if (these !== this.#wanting || !these.length) return;
    this.#fill(MORE);
    setTimeout(() => this.#fillLater(these));
  }

  /** Puts in all rows at once, as to be printed. */
  finish() {
    this.#fill(Infinity);
  }

  /** Takes all but the first rows out of the page: a browser lays out a long list anew when its view is seen again. */
  shorten() {
    this.#wanting = [];
    this.table.removeAttribute("aria-busy");
    for (const group of [...this.table.tBodies].slice(KEPT)) group.remove();
  }

  /** Shows these rows, in this order; each group of them below its heading, where they have such. */
  show(groups) {
    this.table.classList.toggle("grouped", groups.some(({ heading }) => heading));
    for (const group of [...this.table.tBodies]) group.remove();
    this.#wanting = piecesOf(groups);
    this.#fill(FIRST);
    const these = this.#wanting;
    // once the first ones were drawn
    requestAnimationFrame(() => setTimeout(() => this.#fillLater(these)));
  }
}

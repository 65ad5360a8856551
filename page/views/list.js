// A list of records that can be confirmed, as Due and Overdue: its address, rows, totals, filters, order and marks.
import { get, getNewest } from "../ask.js";
import { bothDays } from "../clock.js";
import { onSubmit } from "../fields.js";
import { asking, byId, failed, grouped, made, paragraph, quiet, say } from "../page.js";
import { ANY_HOLD, NO_HOLD, actionsOf, canBeConfirmed, changed, choices, filtered, sorted, totals } from "../plain/lists.js";
import { jsonOf } from "../plain/outcomes.js";
import { t } from "../texts.js";
import { tellChanged, unchanged } from "./changes.js";
import { confirmMarked } from "./confirmation.js";
import { addParts } from "./list_parts.js";
import { ListTable, recordOf } from "./list_table.js";
import { addLine, tellLine } from "./panel_fold.js";

/**
 * @typedef {object} Asked
 * @property {function(string): boolean} takes whether a value is right
 * @property {string} wrong the text of a wrong one
 */

/**
 * What one view is, beside the columns, filters, order and totals of plain/lists.js:
 * @typedef {object} Kind
 * @property {string} name the view's name, with which its ids and texts begin
 * @property {Object<string, Asked>} asks the words of its address that ask for a list
 * @property {function(): Object<string, string>} first what is asked where the address has none of them
 * @property {function(Object<string, string>): string} path the path that is asked
 * @property {function(URLSearchParams): void} [readMore] reads further words of the address
 * @property {function(): Object<string, string>} [more] the further words of the address
 * @property {function(RecordList): void} [shown] is called once a list is shown
 * @property {function(RecordList): void} [marked] is called once other records are marked
 */

/** The values of the sentence that says what is marked. */
const whatOf = ({ action, count, held }) => ({ action: t(`actions.${action}`), count, held });

const isSame = (one, other) => JSON.stringify(one) === JSON.stringify(other);

export class RecordList {
  /** What was asked for the list, its rows, those that are shown, the marked records, the filter and the order. */
  question = null;
  rows = [];
  shown = [];
  marks = new Set();
  filter = {};
  column = "";
  down = false;
  /** Whether the list is the one that the view begins with, as that of today. */
  #isFirst = false;
  #asked = 0;
  #table = null;
  #groupsOf = null;
  #isShort = false;

  /** @param {Kind} kind */
  constructor(kind) {
    this.kind = kind;
  }

  /** A part of this view, by its name. */
  part(name) {
    return byId(`${this.kind.name}-${name}`);
  }

  #text(key, values) {
    return t(`${this.kind.name}.${key}`, values);
  }

  // ---- the address

  /** The address of the list as it is shown. While its day is today it has none, so that a bookmark is of today tomorrow too. */
  #addressOf(question) {
    const { name, filters, more, first } = this.kind;
    const words = new URLSearchParams({ ...question, ...more?.() });
    if (question.day === first().day) words.delete("day");
    for (const filter of filters) if (this.filter[filter]) words.set(filter, this.filter[filter]);
    if (this.column) words.set("sort", `${this.down ? "-" : ""}${this.column}`);
    return words.size ? `#${name}?${words}` : `#${name}`;
  }

  #readWords(words) {
    const { filters, columns, readMore } = this.kind;
    this.filter = Object.fromEntries(filters.map((name) => [name, words.get(name) ?? ""]));
    const sort = words.get("sort") ?? "";
    this.down = sort.startsWith("-");
    this.column = columns.includes(sort.replace(/^-/, "")) ? sort.replace(/^-/, "") : "";
    readMore?.(words);
  }

  keepAddress() {
    history.replaceState(null, "", this.#addressOf(this.question));
  }

  // ---- the list

  #tellTotals() {
    const sums = { ...totals(this.rows), shown: this.shown.length };
    const word = (name) => made("dt", {}, this.#text(`totals.${name}`));
    const sum = (name) => made("div", {}, word(name), made("dd", {}, String(sums[name])));
    this.part("totals").replaceChildren(...this.kind.totals.map(sum));
    const counts = { days: this.question.count, count: this.rows.length, shown: this.shown.length };
    this.part("caption").textContent = this.#text("caption", { ...this.question, ...counts });
  }

  /** The words of a choice: a hold's code is none where a row is not held. */
  #choiceWord(name, value) {
    if (name === "action") return t(`actions.${value}`);
    return name === "confirmed" ? t(`due.${value}`) : value;
  }

  #tellChoices() {
    for (const name of this.kind.filters) {
      const values = choices(this.rows, name).filter(([value]) => value !== "");
      const held = values.reduce((sum, [, count]) => sum + count, 0);
      const more = name === "held" ? [[ANY_HOLD, t("due.held"), held], [NO_HOLD, t("due.free"), this.rows.length - held]] : [];
      const found = [...more, ...values.map(([value, count]) => [value, this.#choiceWord(name, value), count])];
      // a filter that no row of this list meets is still told
      const wanted = this.filter[name];
      if (wanted && !found.some(([value]) => value === wanted)) found.push([wanted, wanted, 0]);
      const option = ([value, text, count]) => made("option", { value }, t("due.choice", { value: text, count }));
      const options = found.map(option);
      this.part(name).replaceChildren(made("option", { value: "" }, t("due.all")), ...options);
      this.part(name).value = wanted ?? "";
    }
  }

  /** Shows the rows that the filter takes, in their order. */
  #draw() {
    const rows = sorted(filtered(this.rows, this.filter), this.column, this.down);
    const groups = this.#groupsOf?.(rows) ?? [{ rows }];
    this.shown = this.#groupsOf ? groups.flatMap((it) => it.rows) : rows;
    this.#isShort = false;
    this.#table.show(groups);
    this.#table.tellOrder(this.column || this.kind.order, this.down);
    this.#tellTotals();
    this.#tellMarks();
    this.kind.shown?.(this);
  }

  #sortBy(column) {
    this.down = this.column === column && !this.down;
    this.column = column;
    this.keepAddress();
    this.#draw();
  }

  #filterBy(name, value) {
    this.filter[name] = value;
    this.keepAddress();
    this.#draw();
  }

  #showAll() {
    this.filter = {};
    for (const name of this.kind.filters) this.part(name).value = "";
    this.keepAddress();
    this.#draw();
  }

  #showList(there) {
    for (const name of ["totals", "list"]) this.part(name).hidden = !there;
  }

  /** Takes another list in place of the one that is shown, with these marks, and says if it looks ahead of today. */
  #take(question, rows, marks = []) {
    this.question = question;
    this.rows = rows;
    this.marks = new Set(marks);
    this.#table.begin((record) => this.marks.has(record));
    this.part("read").textContent = t("due.readAt", { time: new Date().toTimeString().slice(0, 5) });
    const { first } = bothDays();
    this.part("ahead").textContent = question.day > first ? t("due.ahead", { today: first }) : "";
    this.#tellChoices();
    this.#draw();
    this.#showList(rows.length > 0);
  }

  /** Shows no list, as where another one could not be had. */
  #forget() {
    this.question = null;
    this.#showList(false);
  }

  /** Asks for a list, and shows nothing of it: the answer, and its rows or null. */
  async #ask(question, by = get) {
    const answer = await by(this.kind.path(question));
    const rows = jsonOf(answer);
    return { answer, rows: answer.status === 200 && Array.isArray(rows) ? rows : null };
  }

  /** Reads the list that is shown anew, and shows nothing of it: `take` shows it, unless another one is shown by then. */
  async read() {
    const { question } = this;
    const mine = this.#asked;
    const take = (rows, marks) => mine === this.#asked && this.#take(question, rows, marks);
    return { ...(await this.#ask(question, getNewest)), take };
  }

  /** Asks for a list, and shows it, with the marks of what is as it was if it `isKept`; whether it could. */
  async open(question, isKept = false) {
    const mine = ++this.#asked;
    const place = this.part("outcome");
    for (const [name, value] of Object.entries(question)) this.part(name).value = value;
    asking(place);
    const { answer, rows } = await this.#ask(question);
    if (mine !== this.#asked) return false;
    if (!rows) {
      failed(place, answer);
      if (!isSame(question, this.question)) this.#forget();
      else if (this.#isShort) this.#draw();
      return false;
    }
    const marked = isKept ? this.markedRows() : [];
    const changes = changed(marked, rows);
    this.#take(question, rows, unchanged(marked, changes));
    if (rows.length) quiet(place);
    else say(place, "done", paragraph(this.#text("none", { ...question, days: question.count })));
    if (changes.length) tellChanged(this, changes);
    return true;
  }

  // ---- marks

  #tellMarks() {
    const shown = this.marks.size ? this.shown.filter((row) => this.marks.has(row.record)).length : 0;
    this.part("marked").textContent = t("due.marked", { count: this.marks.size, hidden: this.marks.size - shown });
    const rows = this.#toConfirm();
    this.part("submit").textContent = t("due.submit", { count: rows.length });
    this.part("what").textContent = actionsOf(rows).map((it) => t("due.what", whatOf(it))).join(" ");
    // only then it stays in sight, over the rows (office.css)
    this.part("panel").classList.toggle("marking", this.marks.size > 0);
    tellLine(this.part("panel"), grouped(this.marks.size));
    this.kind.marked?.(this);
  }

  /** Puts the title of each record beside its ref; `titleOf` is null where none is shown. */
  tellTitles(titleOf) {
    this.#table.tellTitles(titleOf);
  }

  /** Shows the rows in the groups that a function makes of them, or in none if it is null. */
  group(groupsOf) {
    if (groupsOf === this.#groupsOf) return;
    this.#groupsOf = groupsOf;
    this.#draw();
  }

  /** Says that something was done with the list which changed nothing of it. */
  tell(words) {
    say(this.part("answer"), "done", paragraph(words));
  }

  /** Marks these records and no others. */
  markOnly(records) {
    this.marks = new Set(records);
    this.#table.tick();
    this.#tellMarks();
  }

  /** Marks what is shown and not confirmed, of what is held or of all else: a confirmation of what is held stays for later. */
  #markShown(isHeld) {
    const isMeant = (row) => canBeConfirmed(row) && !row.confirmed && (row.held !== null) === isHeld;
    const more = this.shown.filter(isMeant).map((row) => row.record);
    this.markOnly([...this.marks, ...more]);
  }

  #markOne({ target }) {
    if (target.type !== "checkbox") return;
    if (target.checked) this.marks.add(recordOf(target));
    else this.marks.delete(recordOf(target));
    this.#tellMarks();
  }

  markedRows() {
    return this.marks.size ? this.rows.filter((row) => this.marks.has(row.record)) : [];
  }

  /** What is marked and can be confirmed: what is to be reviewed may be marked too, and stays so. */
  #toConfirm() {
    return this.markedRows().filter(canBeConfirmed);
  }

  // ---- the view

  /** Goes to the list that the form asks for, or reads it anew where it is shown. */
  #go(values) {
    quiet(this.part("panel-outcome"));
    quiet(this.part("answer"));
    const { name, asks } = this.kind;
    const question = Object.fromEntries(Object.keys(asks).map((word) => [word, values[`${name}-${word}`]]));
    const address = this.#addressOf(question);
    // the view's own address brings the list that was shown last, so that the one of today is opened here
    if (!isSame(question, this.question) && location.hash !== address && address.includes("?")) {
      location.hash = address;
      return null;
    }
    if (location.hash === address) history.replaceState(null, "", address);
    else history.pushState(null, "", address);
    this.#isFirst = question.day === this.kind.first().day;
    return this.open(question);
  }

  start() {
    const { name, columns, filters } = this.kind;
    addParts(name, filters);
    addLine(this.part("panel"));
    this.#table = new ListTable(name, columns, (column) => this.#sortBy(column));
    onSubmit(this.part("form"), (values) => this.#go(values));
    // what is marked while the server's clock is asked for was not meant
    onSubmit(this.part("confirm"), (values, marked) => confirmMarked(this, values, marked), () => this.#toConfirm());
    for (const filter of filters) {
      this.part(filter).addEventListener("change", ({ target }) => this.#filterBy(filter, target.value));
    }
    this.part("all").addEventListener("click", () => this.#showAll());
    this.part("mark").addEventListener("click", () => this.#markShown(false));
    this.part("mark-held").addEventListener("click", () => this.#markShown(true));
    this.part("anew").addEventListener("click", () => this.open(this.question, true));
    this.part("unmark").addEventListener("click", () => this.markOnly([]));
    this.part("print").addEventListener("click", () => print());
    this.part("skip").addEventListener("click", () => this.part("confirm-day").focus());
    this.part("table").addEventListener("change", (event) => this.#markOne(event));
    addEventListener("beforeprint", () => this.#table.finish());
  }

  /** Shows the list that is here already, or the first one: that of today is another one by tomorrow. */
  #showLast() {
    const first = this.kind.first();
    const ofToday = this.question && this.#isFirst ? { ...this.question, day: first.day } : first;
    if (this.question && (!this.#isFirst || isSame(ofToday, this.question))) {
      this.keepAddress();
      return this.open(this.question, true);
    }
    this.#isFirst = true;
    return this.open(ofToday);
  }

  /** Is called once another view is seen: this one is read anew when somebody comes back. */
  left() {
    if (!this.question || !byId(this.kind.name).hidden) return;
    this.#isShort = true;
    this.#table.shorten();
  }

  /** Shows the list of today if that of an earlier day is here as today's, on a page that stays open; not while some is marked. */
  renew() {
    if (this.#isFirst && this.marks.size === 0 && this.question?.day !== this.kind.first().day) this.#showLast();
  }

  /** Shows the list that the address names, or else the last one. It is read anew, since it may have changed meanwhile. */
  show(words) {
    // what was done with the list as it was is told no more; what was refused, or is unknown, is
    if (this.part("answer").classList.contains("done")) quiet(this.part("answer"));
    const { asks, first } = this.kind;
    const given = Object.keys(asks).filter((name) => words.has(name));
    if (!words.size) return this.#showLast();
    const question = { ...first(), ...Object.fromEntries(given.map((name) => [name, words.get(name)])) };
    const wrong = Object.keys(asks).find((name) => !asks[name].takes(question[name]));
    if (wrong) {
      this.#forget();
      return say(this.part("outcome"), "wrong", paragraph(t(asks[wrong].wrong)));
    }
    this.#readWords(words);
    if (!words.has("day")) this.#isFirst = true;
    else if (!isSame(question, this.question)) this.#isFirst = false;
    return this.open(question, isSame(question, this.question));
  }
}

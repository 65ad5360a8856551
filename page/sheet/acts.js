// Rows of a sheet as acts of one kind: those that are good, and what is wrong with the cells of the others.
import { inOneLine, noteOf, textOf } from "./cells.js";
import { nameless } from "./columns.js";
import { dayRead, orderOf } from "./days.js";
import { MEMBERS, WORDS, formOf, mayBeEmpty, wordNamed } from "./kinds.js";
import { Pending, Things, countOf, digestOf, lookDay, neededCode, wordOf } from "./members.js";
import { letters } from "./rows.js";
import { Wrong, stripped } from "./unreadable.js";

const TEXTS = ["ref", "title", "reason", "by"];
const CODES = ["code", "class", "schedule", "hold"];
const OF_CODE = { "add-schedule": "schedule", "add-class": "class", "place-hold": "hold" };
const OF_RECORD = ["event", "review", "confirm", "receipt", "set-record-schedule"];
/** Kinds in which a second row for the same thing is a mistake: the members that say which thing it is. */
const ONCE = {
  "add-schedule": ["code"], "add-class": ["code"], "add-aggregation": ["ref"], "close-aggregation": ["aggregation"],
  "set-class-schedule": ["class"], "place-hold": ["code"], "lift-hold": ["hold"], "hold-on": ["hold", "target"],
  "hold-off": ["hold", "target"], reclassify: ["target"],
  ...Object.fromEntries(OF_RECORD.map((kind) => [kind, ["record"]])),
};

/**
 * A row as an act: `act` is null where something is wrong; `left` says that it is not to be sent, since it says no, or
 * nothing. In an act a number may be Pending.
 * @typedef {{ number: number, cells: string[], act: object | null, left: "" | "no" | "undecided", wrong: object[],
 *   notes: object[], shown: Record<string, string> }} ActRow
 */

/** Turns the rows of a sheet, one after another. */
class Turner {
  constructor(columns, options) {
    this.columns = columns;
    this.options = options;
    this.kind = options.kind;
    this.form = formOf(options.kind);
    this.things = new Things(options.catalogue ?? null);
    this.seen = new Map();
    this.order = { name: "ymd", shown: null };
  }

  /** A cell without the spaces around it; one that the row has not is empty. */
  cell(row, name) {
    if (name in this.columns.values) return this.columns.values[name];
    const cell = stripped(row.cells[this.columns.places[name] ?? row.cells.length] ?? "");
    return this.options.joinLines && TEXTS.includes(name) ? inOneLine(cell) : cell;
  }

  where(row, name) {
    const { places } = this.columns;
    return name in places ? `${letters(places[name])}${row.number}` : String(row.number);
  }

  has(name) {
    return name in this.columns.places || name in this.columns.values;
  }

  /** The kind of a row: of a plan it has a column of its own. */
  kindOf(row) {
    return this.kind === "plan" ? wordNamed("act", this.cell(row, "act")) : this.kind;
  }

  /** Notes which codes and refs the sheet itself adds: rows may name them before and after. */
  gather(rows) {
    for (const row of rows) {
      const kind = this.kindOf(row);
      if (kind === "add-schedule") this.things.added.schedule.add(this.cell(row, "code"));
      if (kind === "add-class") this.things.added.class.add(this.cell(row, "code"));
      if (kind === "add-aggregation") this.things.added.aggregation.add(this.cell(row, "ref"));
    }
  }

  readOrder(rows) {
    if (!this.form.names.includes("occurred")) return;
    const days = rows.map((row) => [this.where(row, "occurred"), this.cell(row, "occurred")]);
    this.order = orderOf(days, this.options.days, this.options.years);
  }

  // ---- members

  value(kind, name, row) {
    const cell = this.cell(row, name);
    if (!cell && mayBeEmpty(kind, name)) return null;
    const parts = {
      count: () => countOf(cell, wordNamed("unit", this.cell(row, "unit"))),
      digest: () => digestOf(cell),
      occurred: () => dayRead(cell, this.order.name, this.options.years),
      parent: () => this.things.number("aggregation", cell),
      record: () => this.things.number("record", cell, this.cell(row, "ref")),
      aggregation: () => this.things.number("aggregation", cell, this.cell(row, "ref")),
      target: () => this.target(kind, row),
    };
    if (name in parts) return parts[name]();
    if (name in WORDS) return wordOf(name, cell);
    return CODES.includes(name) ? neededCode(cell) : textOf(cell);
  }

  target(kind, row) {
    const names = this.form.either.filter((it) => this.has(it));
    return this.things.target(Object.fromEntries(names.map((it) => [it, this.cell(row, it)])), kind !== "reclassify");
  }

  // ---- rows

  /** The column whose cell is the value of a member: that of the ref where the row has that alone. */
  shownAt(row, name) {
    const others = { record: ["ref"], aggregation: ["ref"], target: this.form.either }[name] ?? [];
    const there = [name, ...others].filter((it) => this.has(it));
    return there.find((it) => this.cell(row, it)) ?? there[0] ?? name;
  }

  /** Where the cell of a member is, and what is in it. */
  place(row, name) {
    const at = this.shownAt(row, name);
    return { where: this.where(row, at), at: this.columns.places[at] ?? null, name: at, text: this.cell(row, at) };
  }

  /** Does a part of a row; what is wrong is noted at the cell of a member. */
  attempt(row, turned, name, part) {
    try {
      part();
    } catch (why) {
      if (!(why instanceof Wrong)) throw why;
      turned.wrong.push({ ...this.place(row, name), kind: why.kind, values: why.values });
    }
  }

  turn(row) {
    const kind = this.kindOf(row);
    const turned = { number: row.number, cells: row.cells, act: null, left: "", wrong: [], notes: [], shown: {} };
    for (const name of this.form.names) turned.shown[name] = this.cell(row, name);
    if (kind === undefined) {
      this.attempt(row, turned, "act", () => wordOf("act", this.cell(row, "act")));
      return turned;
    }
    if (kind === "confirm") turned.left = this.leftOf(row);
    if (turned.left) return turned;
    const act = { act: kind };
    for (const name of MEMBERS[kind].split(" ")) {
      this.attempt(row, turned, name, () => {
        act[name] = this.value(kind, name, row);
      });
    }
    if (!turned.wrong.length) this.attempt(row, turned, ONCE[kind].at(-1), () => this.once(kind, act, row));
    this.checkStrange(row, kind, turned);
    if (!turned.wrong.length) turned.act = act;
    this.look(row, kind, act, turned);
    return turned;
  }

  /** Whether a row is not to be confirmed: it says no, or nothing. */
  leftOf(row) {
    const cell = this.cell(row, "decision");
    if (!cell) return "undecided";
    return wordNamed("decision", cell) === "no" ? "no" : "";
  }

  once(kind, act, row) {
    const key = JSON.stringify([kind, ...ONCE[kind].map((name) => act[name])]);
    if (this.seen.has(key)) throw new Wrong("again", { row: this.seen.get(key) });
    this.seen.set(key, row.number);
  }

  /** Says which cells belong to no column, and of a plan which do not belong to the row's kind. */
  checkStrange(row, kind, turned) {
    for (const at of nameless(this.columns, row.cells.length)) {
      const text = stripped(row.cells[at]);
      const where = `${letters(at)}${row.number}`;
      if (text) turned.wrong.push({ where, at, name: "", text, kind: "nameless", values: {} });
    }
    if (kind === "confirm") this.attempt(row, turned, "decision", () => wordOf("decision", this.cell(row, "decision")));
    if (this.kind !== "plan") return;
    const own = [...formOf(kind).names, "act"];
    for (const name of this.form.names.filter((it) => !own.includes(it) && this.cell(row, it))) {
      this.attempt(row, turned, name, () => {
        throw new Wrong("strange", { kind });
      });
    }
  }

  // ---- what somebody should look at

  look(row, kind, act, turned) {
    for (const name of MEMBERS[kind].split(" ").filter((it) => it in act)) {
      const look = this.lookAt(kind, name, act[name]);
      if (look) turned.notes.push({ ...this.place(row, name), ...look });
    }
  }

  lookAt(kind, name, value) {
    const { things, options } = this;
    if (value === null && ["set-record-schedule", "reclassify"].includes(kind)) return { kind: "emptied", values: {} };
    if (name === "occurred") return options.today ? lookDay(value, options.today, options.day) : null;
    if (name === "record") return things.look("record", value, kind);
    if (name === "aggregation" || name === "parent") return things.look("aggregation", value, kind);
    if (name === "target") {
      const [what, thing] = value.split(":");
      return what === "class" ? things.lookCode(what, thing, false) : things.look(what, Number(thing), "reclassify");
    }
    const isNew = name === "code";
    if (CODES.includes(name)) return things.lookCode(isNew ? OF_CODE[kind] : name, value ?? "", isNew);
    if (name === "ref" && things.catalogue?.numbers.aggregation.has(value)) return { kind: "exists", values: {} };
    const note = TEXTS.includes(name) ? noteOf(value) : null;
    return note && { kind: note, values: {} };
  }
}

/** The rows below the header as acts, each with what is wrong with it; and the order of days. */
export function turnActs(filled, columns, options) {
  const turner = new Turner(columns, options);
  turner.gather(filled);
  turner.readOrder(filled);
  const rows = filled.map((row) => turner.turn(row));
  return { order: turner.order, rows };
}

/** The ref of the aggregation whose number an act waits for, or undefined. */
export const waitsFor = (act) => Object.values(act).find((it) => it instanceof Pending)?.ref;

/** An act of a day, with the numbers that the office gave; null where one of them did not come. */
export function actOf(act, day, numbers) {
  const ref = waitsFor(act);
  if (ref !== undefined && !numbers.has(ref)) return null;
  const { act: kind, ...members } = act;
  const made = Object.entries(members).map(([name, it]) => [name, it instanceof Pending ? numbers.get(it.ref) : it]);
  return { act: kind, day, ...Object.fromEntries(made) };
}

/**
 * The rows in the order in which the office takes them, as lists: schedules, classes, then the others; what a row of a
 * list waits for is in an earlier list. Rows that wait for one another stay out of all.
 */
export function inOrder(rows) {
  const first = ["add-schedule", "add-class"];
  const lists = first.map((kind) => rows.filter(({ act }) => act.act === kind));
  let left = rows.filter(({ act }) => !first.includes(act.act));
  const there = new Set();
  for (let ready = [null]; ready.length;) {
    const isReady = ({ act }) => waitsFor(act) === undefined || there.has(waitsFor(act));
    ready = left.filter(isReady);
    left = left.filter((row) => !isReady(row));
    lists.push(ready);
    for (const { act } of ready) if (act.act === "add-aggregation") there.add(act.ref);
  }
  return lists.filter((list) => list.length);
}

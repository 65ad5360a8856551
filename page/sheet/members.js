// What each cell is for an act: the value of its member, or why it is wrong. The forms are those of docs/ACTS.md.
import { codeCell, textOf } from "./cells.js";
import { LONGEST, WORDS, wordNamed } from "./kinds.js";
import { Wrong } from "./unreadable.js";

const LARGEST_NUMBER = 4294967295;
const FIRST_USUAL_YEAR = "1800";

/**
 * What the catalogue has at its moment: refs by numbers and numbers by refs, which aggregations are closed, which codes
 * are there, and which holds are lifted.
 * @typedef {{ moment: string, refs: Record<"aggregation" | "record", Map<number, string>>,
 *   numbers: Record<"aggregation" | "record", Map<string, number>>, closed: Set<number>,
 *   codes: Record<"schedule" | "class" | "hold", Set<string>>, lifted: Set<string> }} Catalogue
 */

/** The number of an aggregation that the same sheet adds: the office gives it with the answer. */
export class Pending {
  constructor(ref) {
    this.ref = ref;
  }
}

/** The word of a member, as trigger or unit. */
export function wordOf(member, cell) {
  const word = wordNamed(member, cell);
  if (word === undefined) throw new Wrong("word", { words: Object.keys(WORDS[member]).join(", ") });
  return word;
}

/** The length of a period, up to the most of its unit. */
export function countOf(cell, unit) {
  if (!/^[0-9]{1,9}$/.test(cell)) throw new Wrong("count");
  if (unit && Number(cell) > LONGEST[unit]) throw new Wrong("limit", { most: LONGEST[unit] });
  return Number(cell);
}

export function neededCode(cell) {
  if (!cell) throw new Wrong("empty");
  return codeCell(cell);
}

/** A digest; capital digits, as Windows writes them, become small ones. */
export function digestOf(cell) {
  if (!/^[0-9A-Fa-f]{64}$/.test(cell)) throw new Wrong("digest", { count: [...cell].length });
  return cell.toLowerCase();
}

/** A ref without the apostrophe that the page's CSV puts before what a spreadsheet program would compute. */
export const withoutGuard = (ref) => (/^'[=+\-@\t\r\n\uff1d\uff0b\uff0d\uff20]/.test(ref) ? ref.slice(1) : ref);

/** Numbers of records and aggregations by what cells say: a number, or a ref that the catalogue has. */
export class Things {
  constructor(catalogue) {
    this.catalogue = catalogue;
    /** The codes and refs that the sheet itself adds. */
    this.added = { schedule: new Set(), class: new Set(), hold: new Set(), aggregation: new Set() };
  }

  /** The number of a thing; where a row has its ref too, the catalogue must have that ref for it. */
  number(what, cell, ref = "") {
    if (!cell && !ref) throw new Wrong("nothing");
    if (!cell) return this.byRef(what, ref);
    if (!/^[0-9]+$/.test(cell)) return this.byRef(what, cell);
    const named = this.catalogue?.numbers[what].get(cell);
    if (named !== undefined && String(named) !== cell) throw new Wrong("both", { number: named });
    if (cell.startsWith("0") || Number(cell) > LARGEST_NUMBER) throw new Wrong("range", { most: LARGEST_NUMBER });
    const there = this.catalogue?.refs[what].get(Number(cell));
    if (ref && there !== undefined && ![ref, withoutGuard(ref)].includes(there)) throw new Wrong("otherRef", { there, ref });
    return Number(cell);
  }

  byRef(what, ref) {
    textOf(ref);
    const numbers = this.catalogue?.numbers[what];
    const number = numbers?.get(ref) ?? numbers?.get(withoutGuard(ref));
    if (number !== undefined) return number;
    if (what === "aggregation" && this.added.aggregation.has(ref)) return new Pending(ref);
    throw new Wrong(this.catalogue ? "noRef" : "noCatalogue");
  }

  /** What a hold is put on, or what gets another class, by the one cell that says it. */
  target(cells, canBeClass) {
    let there = Object.fromEntries(Object.entries(cells).filter(([, cell]) => cell));
    const names = Object.keys(there);
    if (!names.length) throw new Wrong("nothing");
    if (names.length > 1 && !(names.length === 2 && there.record && there.ref)) throw new Wrong("several");
    if (there.target !== undefined) {
      const [, kind, name] = /^(class|aggregation|record):(.*)$/s.exec(there.target) ?? [];
      if (!kind) throw new Wrong("target");
      there = { [kind]: name };
    }
    if (there.class !== undefined) {
      if (!canBeClass) throw new Wrong("target");
      return `class:${neededCode(there.class)}`;
    }
    const what = there.aggregation === undefined ? "record" : "aggregation";
    return `${what}:${this.number(what, there[what] ?? "", there.ref ?? "")}`;
  }

  // ---- what somebody should look at: its kind and values, or null

  /** Whether a number is that of a thing which the catalogue has, and open. */
  look(what, number, kind) {
    if (!this.catalogue || typeof number !== "number") return null;
    if (!this.catalogue.refs[what].has(number)) return { kind: "notThere", values: {} };
    const isClosed = what === "aggregation" && this.catalogue.closed.has(number) && kind !== "reclassify";
    return isClosed ? { kind: "closed", values: {} } : null;
  }

  /** Whether a code is there, or is not there where it is to be new. */
  lookCode(what, code, isNew) {
    if (!this.catalogue || !code) return null;
    const isThere = this.catalogue.codes[what].has(code);
    if (isNew) return isThere ? { kind: "exists", values: {} } : null;
    if (what === "hold" && this.catalogue.lifted.has(code)) return { kind: "lifted", values: {} };
    return isThere || this.added[what].has(code) ? null : { kind: "notThere", values: {} };
  }
}

/** What somebody should look at in a day: one that has not come, that is long ago, or after the act's. */
export function lookDay(day, today, act) {
  if (day > today) return { kind: "future", values: { today } };
  if (act && day > act) return { kind: "later", values: { day: act } };
  return day < FIRST_USUAL_YEAR ? { kind: "old", values: { year: FIRST_USUAL_YEAR } } : null;
}

// What the office reports of each record beside its ref and title, as the catalogue has it: in columns of numbers, since there
// may be 200,000 records.

const MILLISECONDS = 86400000;

/** A day by its number, 1970-01-01 being 0. */
export const dayOf = (number) => new Date(number * MILLISECONDS).toISOString().slice(0, 10);
export const numberOfDay = (day) => Date.parse(`${day}T00:00:00Z`) / MILLISECONDS;

/** The columns of the catalogue's part `details`, in their order. */
const COLUMNS = ["originated", "added", "class", "schedule", "length", "due", "held"];
const DAYS = ["originated", "added", "due"];

export class Details {
  /**
   * @param {(number | null)[][]} columns a number for each record, by position; of a code its place among all codes
   * @param {string[]} classes the codes of all classes
   * @param {string[]} schedules
   * @param {string[]} holds
   */
  constructor(columns, classes, schedules, holds = []) {
    // a catalogue that an older program made does not have the last one
    this.columns = Object.fromEntries(COLUMNS.map((name, at) => [name, columns[at] ?? []]));
    this.codes = { class: classes, schedule: schedules, held: holds };
    this.known = this.columns.originated.length;
    this.asked = new Set();
  }

  /** Whether anything is known of the record at a position: of what was filed since the catalogue only what was asked for. */
  has(at) {
    return (at >= 0 && at < this.known) || this.asked.has(at);
  }

  /** Makes columns of its own, with room for so many records. */
  grow(count) {
    for (const name of COLUMNS) {
      const column = this.columns[name];
      if (column.length) this.columns[name] = [...column, ...Array(count - column.length).fill(null)];
    }
    this.codes = Object.fromEntries(Object.entries(this.codes).map(([name, codes]) => [name, [...codes]]));
  }

  /** Takes what the office reports of a record now, into columns of its own. */
  put(at, record) {
    if (at < 0) return;
    this.asked.add(at);
    for (const name of COLUMNS) if (this.columns[name].length) this.columns[name][at] = this.#numberOf(name, record[name] ?? null);
  }

  /** A detail as its column has it. */
  #numberOf(name, value) {
    if (value === null) return null;
    if (DAYS.includes(name)) return numberOfDay(value);
    if (!(name in this.codes)) return value;
    if (!this.codes[name].includes(value)) this.codes[name].push(value);
    return this.codes[name].indexOf(value);
  }

  /** How many records that are here the office names this hold for; null if the catalogue does not say it. */
  heldBy(hold) {
    const place = this.codes.held.indexOf(hold);
    const { held } = this.columns;
    return held.length && place >= 0 ? held.filter((it) => it === place).length : null;
  }

  /** A detail of the record at a position; null where there is none. */
  value(name, at) {
    const number = this.columns[name][at] ?? null;
    if (number === null) return null;
    if (name in this.codes) return this.codes[name][number];
    return DAYS.includes(name) ? dayOf(number) : number;
  }

  /** All details of the record at a position, by their names. */
  at(position) {
    return Object.fromEntries(COLUMNS.map((name) => [name, this.value(name, position)]));
  }

  /** The years in which records originated, the last one first. */
  years() {
    const days = new Set(this.columns.originated.filter((day) => day !== null));
    return [...new Set([...days].map((day) => dayOf(day).slice(0, 4)))].sort().reverse();
  }
}

/** The details of no record, as long as none are read. */
export const NO_DETAILS = Object.fromEntries(COLUMNS.map((name) => [name, null]));

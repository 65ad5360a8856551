// What keeps a sheet, or one of its cells, from being read: its kind in a word, as companions/sheets/spreadsheet has it.

/** The sheet cannot be read before somebody says more. */
export class Unreadable extends Error {
  constructor(kind, values = {}) {
    super(kind);
    this.kind = kind;
    this.values = values;
  }
}

/** Something is wrong with a cell. */
export class Wrong extends Error {
  constructor(kind, values = {}) {
    super(kind);
    this.kind = kind;
    this.values = values;
  }
}

// what Python takes for white space, for the command line reads alike
const SPACES = "[\\t-\\r\\x1c-\\x20\\x85\\xa0\\u1680\\u2000-\\u200a\\u2028\\u2029\\u202f\\u205f\\u3000]+";
const AROUND = new RegExp(`^${SPACES}|${SPACES}$`, "g");

/** A cell without the white space around it. */
export const stripped = (text) => text.replace(AROUND, "");

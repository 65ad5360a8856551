// Documents that the cells of a sheet name: what a cell names among those that somebody chose, as in office-convert --files.
import { LONGEST_CONTENT } from "./cells.js";
import { Wrong } from "./unreadable.js";

const plain = (place) => place.normalize("NFC").replaceAll("\\", "/").replace(/^(\.?\/)+/, "");
const baseOf = (place) => place.slice(place.lastIndexOf("/") + 1);

/** @typedef {{ file: File, place: string }} Document */

export class Documents {
  /** Documents by their places, by these without the folder that was chosen, and by their names alone. */
  #places = new Map();
  #names = new Map();

  /**
   * @param {Document[]} all
   * @param {(file: File) => boolean} isTaken whether a file that no content takes goes into the vault
   */
  constructor(all, isTaken) {
    this.all = all;
    this.isTaken = isTaken;
    for (const it of all) {
      const place = plain(it.place);
      this.#places.set(place, it);
      const inside = place.slice(place.indexOf("/") + 1);
      if (!this.#places.has(inside)) this.#places.set(inside, it);
      const name = baseOf(place);
      this.#names.set(name, [...(this.#names.get(name) ?? []), it]);
    }
  }

  /** The document that a cell names; throws what is wrong with the cell. @returns {Document} */
  named(cell) {
    const place = plain(cell);
    const several = this.#names.get(baseOf(place)) ?? [];
    const found = this.#places.get(place) ?? (several.length === 1 ? several[0] : null);
    if (!found) throw new Wrong(several.length ? "documents" : "document");
    return found;
  }

  /** The value of a cell: the place of its document, or nothing for an empty one. */
  value(cell) {
    if (!cell) return "";
    const { file, place } = this.named(cell);
    if (file.size > LONGEST_CONTENT && !this.isTaken(file)) throw new Wrong("large", { bytes: file.size, most: LONGEST_CONTENT });
    return place;
  }

  /** How many of these cells name a document. */
  count(cells) {
    const isNamed = (cell) => {
      try {
        return Boolean(cell) && Boolean(this.named(cell));
      } catch (why) {
        if (!(why instanceof Wrong)) throw why;
        return false;
      }
    };
    return cells.filter(isNamed).length;
  }
}

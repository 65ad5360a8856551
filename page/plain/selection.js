// What is marked in a list: numbers of records or of aggregations, which stay marked whatever is shown of the list.

export class Selection {
  #numbers = new Set();
  #heard;

  /** `heard` is called after each change. */
  constructor(heard = () => {}) {
    this.#heard = heard;
  }

  get size() {
    return this.#numbers.size;
  }

  has(number) {
    return this.#numbers.has(number);
  }

  /** The numbers, in the order in which they were marked. */
  get numbers() {
    return [...this.#numbers];
  }

  /** How many of these numbers are marked. */
  among(numbers) {
    let count = 0;
    for (const number of numbers) if (this.#numbers.has(number)) count += 1;
    return count;
  }

  /** Marks one number, or takes its mark off. */
  set(number, isMarked) {
    if (isMarked) this.#numbers.add(number);
    else this.#numbers.delete(number);
    this.#heard();
  }

  /** Marks these numbers too. */
  add(numbers) {
    for (const number of numbers) this.#numbers.add(number);
    this.#heard();
  }

  clear() {
    this.#numbers.clear();
    this.#heard();
  }
}

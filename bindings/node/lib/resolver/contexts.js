'use strict';
// Lines of a content by their numbers.

// As docs/FORMAT.md, "Positions in a text".
const END = /\r\n?|[\n\u2028\u2029]/g;

class Lines {
  #text;
  #starts = [0];
  #ends = [];

  constructor(text) {
    this.#text = text;
    for (const { 0: end, index } of text.matchAll(END)) {
      this.#ends.push(index);
      this.#starts.push(index + end.length);
    }
    this.#ends.push(text.length);
  }

  /** Of how many bytes at most, so that a table of them is bounded. */
  get size() {
    return 2 * this.#text.length + 32 * this.length;
  }

  get length() {
    return this.#starts.length;
  }

  line(number) {
    if (!(Number.isInteger(number) && number >= 0 && number < this.length)) {
      throw new RangeError(`there is no line ${number}: there are ${this.length}`);
    }
    return this.#text.slice(this.#starts[number], this.#ends[number]);
  }

  around(number, count) {
    if (!(Number.isInteger(count) && count >= 0)) throw new RangeError('the count is below 0, or no integer');
    this.line(number);
    const first = Math.max(number - count, 0);
    const last = Math.min(number + count, this.length - 1);
    return { first, line: number, lines: Array.from({ length: last - first + 1 }, (_, at) => this.line(first + at)) };
  }
}

module.exports = { Lines };

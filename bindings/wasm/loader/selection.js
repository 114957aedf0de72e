'use strict';
// The map that `trace` asks.

const { NOT_TOLD, Slot } = require('./layout.js');

/** Where the map that is selected is. Its handle is not kept: once that is collected, no map is selected. */
class Selection {
  #words;
  #lastNumber = 0;
  #unselects;

  /** Tells in these words by which number the map is known. */
  constructor(words) {
    this.asked = null;
    this.#words = words;
    this.#unselects = new FinalizationRegistry((number) => {
      if (words[Slot.SELECTED] === number) this.clear();
    });
  }

  select(map, isCompiled) {
    if (map.number === 0 && this.#lastNumber < NOT_TOLD) {
      map.number = ++this.#lastNumber;
      if (map.block === null) this.#unselects.register(map, map.number);
    }
    this.asked = map.isNull ? null : { instance: map.instance, at: map.at, isCompiled };
    this.#words[Slot.SELECTED] = map.number;
  }

  clear() {
    this.asked = null;
    this.#words[Slot.SELECTED] = 0;
  }

  /** Selects no map, if it is the one at this address. */
  drop(instance, at) {
    const { asked } = this;
    if (asked !== null && asked.instance === instance && asked.at === at) this.clear();
  }
}

module.exports = { Selection };

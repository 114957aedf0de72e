'use strict';
// What a call borrows in the memory of an instance.

const { NoMemory } = require('./instance.js');

/** Puts things into the memory, which go at the end. */
class Lender {
  constructor(instance) {
    this.instance = instance;
    this.lent = [];
  }

  #keep(at) {
    this.lent.push(at);
    return at;
  }

  text(it) {
    const { at, len } = this.instance.putText(it);
    return [this.#keep(at), len];
  }

  words(it) {
    return this.#keep(this.instance.putWords(it));
  }

  room(bytes) {
    return this.#keep(this.instance.room(bytes));
  }

  texts({ bytes, lengths }) {
    const at = this.#keep(this.instance.putBytes(bytes).at);
    const list = this.instance.call('loader_texts', at, this.words(lengths), lengths.length);
    if (list === 0) throw new NoMemory();
    return [this.#keep(list), lengths.length];
  }

  end() {
    if (this.instance.trap === null) for (const at of this.lent) this.instance.call('free', at);
  }
}

/** What `run` returns, over things that it borrows. */
function lending(instance, run) {
  const lender = new Lender(instance);
  try {
    return run(lender);
  } finally {
    lender.end();
  }
}

module.exports = { lending };

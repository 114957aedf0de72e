'use strict';

/** Texts, each once, with ids in the order in which they come. Often a text is the one that came before. */
class Texts {
  constructor() {
    this.list = [];
    this.ids = new Map();
    this.last = undefined;
    this.lastId = 0;
  }

  /** The id of a text, which is added if it is not there. */
  put(text) {
    if (text === this.last) return this.lastId;
    this.last = text;
    this.lastId = this.ids.get(text) ?? this.add(text);
    return this.lastId;
  }

  add(text) {
    const id = this.list.push(text) - 1;
    this.ids.set(text, id);
    return id;
  }
}

module.exports = { Texts };

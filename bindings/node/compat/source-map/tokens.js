'use strict';
// Tokens as numbers, six words each, as the class SourceMap takes and gives them.

const { NO_ID } = require('../../lib/constants.js');

const WORDS = 6;
/** Where in a token which number is. */
const Field = Object.freeze({ LINE: 0, COLUMN: 1, ORIGINAL_LINE: 2, ORIGINAL_COLUMN: 3, SOURCE: 4, NAME: 5 });

// Room for two tokens lies in the heap of the engine; for more it is taken outside, which costs as much as adding twenty.
const FIRST_ROOM = 2 * WORDS;
const LATER_ROOM = 32 * WORDS;

/** Tokens that grow in number. */
class TokenList {
  #words = new Uint32Array(FIRST_ROOM);
  #length = 0;

  /** The numbers of all tokens, until one is added. */
  get words() {
    return this.#length === this.#words.length ? this.#words : this.#words.subarray(0, this.#length);
  }

  add(line, column, originalLine, originalColumn, source, name) {
    if (this.#length === this.#words.length) this.#grow();
    const words = this.#words;
    let at = this.#length;
    words[at++] = line;
    words[at++] = column;
    words[at++] = originalLine;
    words[at++] = originalColumn;
    words[at++] = source;
    words[at++] = name;
    this.#length = at;
  }

  #grow() {
    const wider = new Uint32Array(Math.max(LATER_ROOM, 2 * this.#words.length));
    wider.set(this.#words);
    this.#words = wider;
  }
}

const DIGIT_BITS = 11;
const DIGITS = 1 << DIGIT_BITS;

/** Sorts indices by one digit of their keys; those of equal digits keep their order. */
function sortByDigit(indices, keys, shift) {
  const starts = new Uint32Array(DIGITS + 1);
  for (let i = 0; i < keys.length; i++) starts[((keys[i] >>> shift) & (DIGITS - 1)) + 1]++;
  if (starts.includes(keys.length)) return indices;
  for (let digit = 1; digit < DIGITS; digit++) starts[digit] += starts[digit - 1];
  const sorted = new Uint32Array(indices.length);
  for (let i = 0; i < indices.length; i++) {
    const index = indices[i];
    sorted[starts[(keys[index] >>> shift) & (DIGITS - 1)]++] = index;
  }
  return sorted;
}

function areSorted(indices, keys) {
  for (let i = 1; i < indices.length; i++) {
    if (keys[indices[i - 1]] > keys[indices[i]]) return false;
  }
  return true;
}

/** Sorts all indices by their keys of 32 bits; those of equal keys keep their order. */
function sortByKeys(indices, keys) {
  if (areSorted(indices, keys)) return indices;
  let sorted = indices;
  for (let shift = 0; shift < 32; shift += DIGIT_BITS) sorted = sortByDigit(sorted, keys, shift);
  return sorted;
}

/** What tokens have in a field. */
function keysOf(words, field) {
  const keys = new Uint32Array(words.length / WORDS);
  for (let index = 0, at = field; index < keys.length; index++, at += WORDS) keys[index] = words[at];
  return keys;
}

/** The ranks of ids; no id stays what it is. */
function ranked(ids, ranks) {
  for (let i = 0; i < ids.length; i++) {
    if (ids[i] !== NO_ID) ids[i] = ranks[ids[i]];
  }
  return ids;
}

/** The indices of all tokens, sorted by several fields, the first of which weighs most. `ranks` may have, for a field, numbers that stand
 *  in for its ids. No id comes last. */
function sortByFields(words, fields, ranks = {}) {
  const all = new Uint32Array(words.length / WORDS);
  for (let index = 0; index < all.length; index++) all[index] = index;
  return fields.reduceRight((sorted, field) => {
    const keys = keysOf(words, field);
    return sortByKeys(sorted, ranks[field] === undefined ? keys : ranked(keys, ranks[field]));
  }, all);
}

/** The tokens at these indices, one after the other. */
function pick(words, indices) {
  const picked = new Uint32Array(WORDS * indices.length);
  for (let to = 0; to < picked.length; to++) picked[to] = words[WORDS * indices[Math.floor(to / WORDS)] + (to % WORDS)];
  return picked;
}

module.exports = { NO_ID, WORDS, Field, TokenList, sortByFields, pick };

'use strict';
// The mappings of a consumer, asked both ways.

const { SourceMap, SourceMapError } = require('../../lib/index.js');
const { Columns } = require('../../lib/columns.js');
const { Bias } = require('../../lib/constants.js');
const { mapOf, shortTokens } = require('../mappings.js');
const { NO_ID, WORDS, Field, sortByFields, pick } = require('./tokens.js');

const { LINE, COLUMN, ORIGINAL_LINE, ORIGINAL_COLUMN, SOURCE, NAME } = Field;
const GENERATED_FIELDS = [LINE, COLUMN, SOURCE, ORIGINAL_LINE, ORIGINAL_COLUMN, NAME];
// Of tokens that are sorted by GENERATED_FIELDS. That the generated column comes before the line is the order of the peer.
const ORIGINAL_FIELDS = [SOURCE, ORIGINAL_LINE, ORIGINAL_COLUMN, COLUMN];

const DIGITS = /[^A-Za-z0-9+/,;]/;

/** The text by which a fault of the mappings is known to those who use the peer. */
function faultText(error, mappings) {
  const stranger = DIGITS.exec(mappings);
  if (error.code === 'SMAP_VLQ_LEFTOVER' && stranger !== null) return `Invalid base64 digit: ${stranger[0]}`;
  if (error.code === 'SMAP_VLQ_LEFTOVER') return 'Expected more digits in base 64 VLQ value.';
  if (error.code !== 'SMAP_BAD_SEGMENT_SIZE') return error.message;
  if (error.detail === 2) return 'Found a source, but no line and column';
  return error.detail === 3 ? 'Found a source and line, but no column' : error.message;
}

/** The tokens of a mappings text, and the map that was made of it: of a short one none. */
function readMappings(mappings) {
  try {
    const words = shortTokens(mappings, NO_ID, NO_ID);
    if (words !== null) return { words, map: null };
    const map = SourceMap.fromMappings(mappings);
    return { words: map.tokens(), map };
  } catch (error) {
    if (!(error instanceof SourceMapError)) throw error;
    throw new Error(faultText(error, mappings), { cause: error });
  }
}

/** Whether a token is at the generated position of the one before it, or goes before it. */
function isBehind(words, at) {
  const before = at - WORDS;
  if (words[before + LINE] !== words[at + LINE]) return words[before + LINE] < words[at + LINE];
  return words[before + COLUMN] < words[at + COLUMN];
}

/** Whether each token is behind the one before it. */
function areApart(words) {
  for (let at = WORDS; at < words.length; at += WORDS) {
    if (!isBehind(words, at)) return false;
  }
  return true;
}

/** The first of the tokens at each generated position. */
function firsts(words) {
  const indices = [];
  for (let index = 0; index < words.length / WORDS; index++) {
    if (index === 0 || isBehind(words, WORDS * index)) indices.push(index);
  }
  return pick(words, indices);
}

/** A map that answers with the first of the tokens at one generated position, from wherever it is asked. */
function mapOfFirst(words) {
  return mapOf(areApart(words) ? words : firsts(words));
}

/** The number of lines up to the last of tokens that are sorted. */
function lineCount(words) {
  return words.length === 0 ? 0 : words[words.length - WORDS + LINE] + 1;
}

function replaceSources(words, ids) {
  for (let at = SOURCE; at < words.length; at += WORDS) words[at] = ids[words[at]] ?? words[at];
}

/** Whether the original position of a token is before another one. */
function isBefore(words, at, source, line, column) {
  if (words[at + SOURCE] !== source) return words[at + SOURCE] < source;
  if (words[at + ORIGINAL_LINE] !== line) return words[at + ORIGINAL_LINE] < line;
  return words[at + ORIGINAL_COLUMN] < column;
}

/** A column as the library takes it. Others may be asked for, as Infinity or 4.5. */
function columnWord(column, bias) {
  if (column >>> 0 === column) return column;
  const whole = bias === Bias.AFTER ? Math.ceil(column) : Math.floor(column);
  return Math.min(whole, NO_ID);
}

class Table {
  #map;
  #words;
  #order = null;
  #withSpans = false;

  /** Of tokens that are sorted by their generated positions, and a map, or what stands for one in lookups. */
  constructor(words, map = mapOfFirst(words)) {
    this.#words = words;
    this.#map = map;
  }

  /** Of a mappings text. Where sources are listed twice, `firstIds` has for each id the first one of its source; else it is null. */
  static ofMappings(mappings, firstIds) {
    const { words, map } = readMappings(mappings);
    const isReady = firstIds === null && areApart(words);
    if (isReady) return map === null ? new Table(words, new Columns(words, lineCount(words))) : new Table(null, map);
    map?.free();
    if (firstIds !== null) replaceSources(words, firstIds);
    return Table.ofTokens(words);
  }

  /** Of tokens in any order. */
  static ofTokens(words) {
    return new Table(areApart(words) ? words : pick(words, sortByFields(words, GENERATED_FIELDS)));
  }

  /** Frees the map. Lookups of generated positions throw from then on. */
  free() {
    this.#map.free();
  }

  /** All tokens. They are read when they are asked for, which lookups of original positions do not. */
  get words() {
    this.#words ??= this.#map.tokens();
    return this.#words;
  }

  /** The indices of the tokens that have a source, by original position. */
  get order() {
    this.#order ??= this.#makeOrder();
    return this.#order;
  }

  #makeOrder() {
    const { words } = this;
    const sorted = sortByFields(words, ORIGINAL_FIELDS);
    const unmapped = sorted.findLastIndex((index) => words[WORDS * index + SOURCE] !== NO_ID) + 1;
    return sorted.subarray(0, unmapped);
  }

  /** The token for a generated position; null if there is none on its line. */
  tokenFor(line, column, bias) {
    const word = columnWord(column, bias);
    if (line >>> 0 !== line || word >>> 0 !== word) return null;
    return this.#map.traceToken(line, word, bias);
  }

  /** Where in the order the first token is that is not before an original position. */
  firstFrom(source, line, column) {
    const { words, order } = this;
    let low = 0;
    let high = order.length;
    while (low < high) {
      const middle = (low + high) >>> 1;
      if (isBefore(words, WORDS * order[middle], source, line, column)) low = middle + 1;
      else high = middle;
    }
    return low;
  }

  /** The index of the first token for an original position, or for the next one before or after it in its source; -1 if there is none. */
  indexFor(source, line, column, bias) {
    const { words, order } = this;
    const next = this.firstFrom(source, line, column);
    if (bias === Bias.AFTER || this.#isAt(next, source, line, column)) return this.#indexIn(next, source);
    if (this.#indexIn(next - 1, source) < 0) return -1;
    const at = WORDS * order[next - 1];
    return order[this.firstFrom(source, words[at + ORIGINAL_LINE], words[at + ORIGINAL_COLUMN])];
  }

  /** The index of a token in the order, if it is one of this source; else -1. */
  #indexIn(place, source) {
    const index = this.order[place];
    return index !== undefined && this.words[WORDS * index + SOURCE] === source ? index : -1;
  }

  #isAt(place, source, line, column) {
    const index = this.#indexIn(place, source);
    if (index < 0) return false;
    const at = WORDS * index;
    return this.words[at + ORIGINAL_LINE] === line && this.words[at + ORIGINAL_COLUMN] === column;
  }

  /** The indices of the tokens on the first line, from this one on, that the source has any on. */
  indicesOnLine(source, line) {
    const first = this.#indexIn(this.firstFrom(source, line, 0), source);
    if (first < 0) return [];
    const found = this.words[WORDS * first + ORIGINAL_LINE];
    return this.order.subarray(this.firstFrom(source, found, 0), this.firstFrom(source, found, Infinity));
  }

  /** The indices of the tokens at the first column, from this one on, that the line has any at. What follows the line's last is not on
   *  the line, so the range is empty there. */
  indicesAtColumn(source, line, column) {
    const start = this.firstFrom(source, line, column);
    const first = this.#indexIn(start, source);
    if (first < 0) return [];
    return this.order.subarray(start, this.firstFrom(source, line, this.words[WORDS * first + ORIGINAL_COLUMN] + 1));
  }

  computeSpans() {
    this.#withSpans = true;
  }

  /** The last column before the next mapping on the line: Infinity if there is none, null as long as spans are not computed. */
  lastColumnOf(index) {
    if (!this.#withSpans) return null;
    const { words } = this;
    const at = WORDS * index;
    let next = at + WORDS;
    while (next < words.length && !isBehind(words, next)) next += WORDS;
    return next < words.length && words[next + LINE] === words[at + LINE] ? words[next + COLUMN] - 1 : Infinity;
  }
}

module.exports = { Table };

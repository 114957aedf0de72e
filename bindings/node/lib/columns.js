'use strict';
// Lookups of generated positions among tokens that are sorted, six numbers each, for which nothing leaves JavaScript. They answer what
// `trace` of the library does; no proof speaks of them, and tests compare the two on every map that there is.

const { Bias, Code } = require('./constants.js');
const { refusal } = require('./errors.js');
const { tokenAt } = require('./iteration.js');

const WORDS = 6;

/** The index of the first token of each line, and one past the last token. */
function lineStarts(tokens, lines) {
  const starts = new Uint32Array(lines + 1);
  for (let at = 0; at < tokens.length; at += WORDS) starts[tokens[at] + 1]++;
  for (let line = 0; line < lines; line++) starts[line + 1] += starts[line];
  return starts;
}

/** The index of the first token past a column, among those from an index up to but not including another. */
function firstAfter(tokens, from, to, column) {
  let low = from;
  let high = to;
  while (low < high) {
    const middle = (low + high) >>> 1;
    if (tokens[WORDS * middle + 1] <= column) low = middle + 1;
    else high = middle;
  }
  return low;
}

/** The index of the token that answers for a column of a line (`Bias.BEFORE`), or -1. The line has to be there. */
function findBefore(tokens, starts, line, column) {
  const from = starts[line];
  let index = firstAfter(tokens, from, starts[line + 1], column) - 1;
  if (index < from) return -1;
  if (tokens[WORDS * index + 1] !== column) return index;
  while (index > from && tokens[WORDS * index - WORDS + 1] === column) index--;
  return index;
}

/** The same for `Bias.AFTER`. */
function findAfter(tokens, starts, line, column) {
  const to = starts[line + 1];
  const index = firstAfter(tokens, starts[line], to, column);
  if (index > starts[line] && tokens[WORDS * index - WORDS + 1] === column) return index - 1;
  return index < to ? index : -1;
}

/** The same for any bias. */
function find(tokens, starts, line, column, bias) {
  if (bias === Bias.AFTER) return findAfter(tokens, starts, line, column);
  const index = findBefore(tokens, starts, line, column);
  return index < 0 && bias === Bias.CLAMPED && starts[line] < starts[line + 1] ? starts[line] : index;
}

/** A copy of the tokens of a map that is sound, which answers as the library does. */
class Columns {
  constructor(tokens, lines) {
    this.tokens = tokens;
    this.starts = lineStarts(tokens, lines);
  }

  /** The index of the token that answers; -1 if there is none. */
  find(line, column, bias) {
    const { tokens, starts } = this;
    return line < starts.length - 1 ? find(tokens, starts, line, column, bias) : -1;
  }

  /** The token that answers, as the class tells it; null if there is none. */
  traceToken(line, column, bias) {
    const { tokens } = this;
    if (tokens === null) throw refusal(Code.NULL_HANDLE);
    const index = this.find(line, column, bias);
    return index < 0 ? null : tokenAt(tokens, WORDS * index, index);
  }

  /** `traceToken` throws from here on, as of a map that was freed. */
  free() {
    this.tokens = null;
  }
}

module.exports = { Columns, lineStarts, findBefore, findAfter };

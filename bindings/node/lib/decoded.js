'use strict';
// Decoded mappings: an array of lines, each an array of segments of 1, 4 or 5 numbers, as the packages of npm have them; and tokens, six
// numbers each.

const native = require('./native.js');
const { NO_ID, Code } = require('./constants.js');
const { check, made, refusal } = require('./errors.js');
const { shown } = require('./arguments.js');

const WORDS = 6;

/** A text of at most so many units is read in one call, which makes no map, into room for all tokens that it may have. */
const SHORT = 2048;
const ROOM = new Uint32Array((WORDS * SHORT) / 2);

/** Reads a mappings text into the room, if it is short: so many words; else -1. `native.words[1]` is 1 if the tokens are sorted. */
function readShort(text, sources, names) {
  if (typeof text !== 'string' || text.length > SHORT || !text.isWellFormed()) return -1;
  const code = native.decodeTokens(text, names, sources, ROOM);
  // (an instance of the module may be full, while another one has the memory: the usual way finds it)
  if (code === Code.OUT_OF_MEMORY) return -1;
  check(code, text);
  return WORDS * native.words[0];
}

/** The tokens of a mappings text, if it is short; else null. `native.words[1]` is 1 if they are sorted. */
function decodedShort(text, sources, names) {
  const length = readShort(text, sources, names);
  return length < 0 ? null : ROOM.slice(0, length);
}

// Arrays of a few tokens are cut from one that is larger: for each of its own, memory is taken outside of the heap, which costs as much as
// reading the text.
const POOL_WORDS = 1024;
const MOST_POOLED = 40 * WORDS;
const ON_HEAP = 2 * WORDS;
let pool = null;
let pooled = POOL_WORDS;

/** The first words of the room, in memory that others may share. */
function pooledCopy(length) {
  if (length <= ON_HEAP || length > MOST_POOLED) return ROOM.slice(0, length);
  if (pooled + length > POOL_WORDS) {
    pool = new Uint32Array(POOL_WORDS);
    pooled = 0;
  }
  const out = pool.subarray(pooled, pooled + length);
  pooled += length;
  for (let i = 0; i < length; i++) out[i] = ROOM[i];
  return out;
}

/** The tokens of a mappings text, if it is short, and they are sorted; else null. Nobody may give their memory away. */
function shortTokens(text, sources, names) {
  const length = readShort(text, sources, names);
  return length < 0 || native.words[1] !== 1 ? null : pooledCopy(length);
}

/** Decoded mappings of a text, if it is short, and its tokens are sorted; else null. They are made from the room: a copy of the tokens, for
 *  which memory is taken outside of the heap, would cost as much as the rest. */
function decodedLines(text) {
  const length = readShort(text, NO_ID, NO_ID);
  return length < 0 || native.words[1] !== 1 ? null : toDecoded(ROOM, lineCount(text), length);
}

/** The number of lines of a mappings text: those at its end count, too. */
function lineCount(text) {
  let lines = 1;
  for (let at = text.indexOf(';'); at >= 0; at = text.indexOf(';', at + 1)) lines++;
  return lines;
}

/** Whether a list is one of lines, and not of tokens. */
function isDecoded(it) {
  return Array.isArray(it) && Array.isArray(it[0]);
}

// ---- to tokens ----

/** The tokens of decoded mappings. Throws a TypeError or a RangeError where a segment is none. */
function readDecoded(decoded) {
  const tokens = new Uint32Array(WORDS * segmentCount(decoded));
  let at = 0;
  for (let line = 0; line < decoded.length; line++) at = readLine(tokens, at, decoded[line], line);
  return tokens;
}

function segmentCount(decoded) {
  let count = 0;
  for (let line = 0; line < decoded.length; line++) count += decoded[line].length;
  return count;
}

function readLine(tokens, start, segments, line) {
  let at = start;
  for (let i = 0; i < segments.length; i++, at += WORDS) {
    const segment = segments[i];
    tokens[at] = line;
    if (!(segment.length === 1 ? writeUnmapped(tokens, at, segment) : writeMapped(tokens, at, segment))) {
      throw badSegment(segment, line, i);
    }
  }
  return at;
}

/** Writes a segment of one number behind its line. Says whether the words have it: others are cut to 32 bits. */
function writeUnmapped(tokens, at, segment) {
  const column = segment[0];
  tokens[at + 1] = column;
  tokens[at + 4] = NO_ID;
  tokens[at + 5] = NO_ID;
  return column >>> 0 === column;
}

/** The same for a segment of four or five numbers. */
function writeMapped(tokens, at, segment) {
  const column = segment[0];
  const source = segment[1];
  const originalLine = segment[2];
  const originalColumn = segment[3];
  tokens[at + 1] = column;
  tokens[at + 2] = originalLine;
  tokens[at + 3] = originalColumn;
  tokens[at + 4] = source;
  const arePlaces = column >>> 0 === column && originalLine >>> 0 === originalLine && originalColumn >>> 0 === originalColumn;
  return arePlaces && isId(source) && writeName(tokens, at, segment);
}

function writeName(tokens, at, segment) {
  if (segment.length === 4) {
    tokens[at + 5] = NO_ID;
    return true;
  }
  const name = segment[4];
  tokens[at + 5] = name;
  return segment.length === 5 && isId(name);
}

function isId(it) {
  return it >>> 0 === it && it !== NO_ID;
}

function badSegment(segment, line, index) {
  const where = `Segment ${index} of line ${line} of the mappings`;
  const size = segment.length;
  if (size !== 1 && size !== 4 && size !== 5) return new RangeError(`${where} has ${size} numbers, and not 1, 4 or 5`);
  const bad = segment.find((it, field) => !(field === 1 || field === 4 ? isId(it) : it >>> 0 === it));
  const Kind = typeof bad === 'number' ? RangeError : TypeError;
  return new Kind(`${where} has ${shown(bad)}, which is no column, line or id`);
}

// ---- of tokens ----

/** The segment of the token at an index of words. */
function segmentAt(tokens, at) {
  if (tokens[at + 4] === NO_ID) return [tokens[at + 1]];
  if (tokens[at + 5] === NO_ID) return [tokens[at + 1], tokens[at + 4], tokens[at + 2], tokens[at + 3]];
  return [tokens[at + 1], tokens[at + 4], tokens[at + 2], tokens[at + 3], tokens[at + 5]];
}

/** Decoded mappings, of so many lines, of the first words of tokens in the order of lines. */
function toDecoded(tokens, lines, length = tokens.length) {
  const decoded = new Array(lines);
  let at = 0;
  for (let line = 0; line < lines; line++) {
    let end = at;
    while (end < length && tokens[end] === line) end += WORDS;
    decoded[line] = segmentsOf(tokens, at, end);
    at = end;
  }
  return decoded;
}

function segmentsOf(tokens, from, to) {
  const segments = new Array((to - from) / WORDS);
  for (let i = 0, at = from; at < to; i++, at += WORDS) segments[i] = segmentAt(tokens, at);
  return segments;
}

// ---- to a text ----

// Arrays of up to two tokens lie in the heap of the engine, which moves them out of it, and takes memory for that, before a call gets their
// address: so these are handed over in their places.
const FEW = [0, 1, 2].map((count) => new Uint32Array(3 * WORDS).subarray(0, WORDS * count));

/** The text that the library writes for tokens, of at most so many bytes. */
function encoded(tokens, limit) {
  const few = FEW[tokens.length / WORDS];
  few?.set(tokens);
  return made(native.encodeMappings(few ?? tokens, limit));
}

/** The mappings text of tokens, of at most so many bytes, and of so many lines; those past the last token are empty. */
function toText(tokens, lines, limit) {
  const last = tokens.length === 0 ? 0 : tokens[tokens.length - WORDS];
  const empty = Math.max(0, lines - 1 - last);
  if (limit < empty) throw refusal(Code.TOO_LARGE);
  return encoded(tokens, limit === undefined ? undefined : limit - empty) + ';'.repeat(empty);
}

module.exports = { WORDS, decodedShort, shortTokens, decodedLines, lineCount, isDecoded, readDecoded, segmentAt, toDecoded, encoded, toText };

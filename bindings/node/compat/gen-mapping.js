'use strict';
// The API of @jridgewell/gen-mapping 0.3: a map that is made mapping by mapping. Lines of mappings count from 1, those of segments
// from 0.
//
// Mappings are kept as tokens of the library in one typed array, which grows. One that comes before the last waits to be sorted until
// the map is asked for, or until one comes that is only added if it says something new.

const { noWord } = require('../lib/arguments.js');
const mappings = require('./mappings.js');
const { Texts } = require('./texts.js');
const { TraceMap, tokensOf } = require('./trace-map.js');
const { WORDS, NO_ID } = mappings;

class GenMapping {
  constructor({ file, sourceRoot } = {}) {
    this._names = new Texts();
    this._sources = new Texts();
    this._sourcesContent = [];
    this._ignoreList = new Set();
    this._tokens = new Uint32Array(64 * WORDS);
    this._length = 0;
    this._isSorted = true;
    this.file = file;
    this.sourceRoot = sourceRoot;
  }
}

// ---- tokens ----

/** The tokens of a map in order: a part of its array, valid until the next one is added. */
function sortedTokens(map) {
  const tokens = map._tokens.subarray(0, map._length);
  if (map._isSorted) return tokens;
  map._tokens = mappings.sorted(tokens);
  map._isSorted = true;
  return map._tokens;
}

/** Makes room for one more token. */
function grow(map) {
  const larger = new Uint32Array(Math.max(64 * WORDS, 2 * map._tokens.length));
  larger.set(map._tokens);
  map._tokens = larger;
}

/** Writes a token at an index of words. */
function write(map, at, line, column, originalLine, originalColumn, source, name) {
  if (map._length + WORDS > map._tokens.length) grow(map);
  const tokens = map._tokens;
  if (at < map._length) tokens.copyWithin(at + WORDS, at, map._length);
  tokens[at] = line;
  tokens[at + 1] = column;
  tokens[at + 2] = originalLine;
  tokens[at + 3] = originalColumn;
  tokens[at + 4] = source;
  tokens[at + 5] = name;
  map._length += WORDS;
}

/** Appends a token, which may belong elsewhere. */
function append(map, line, column, originalLine, originalColumn, source, name) {
  const at = map._length;
  const isInOrder = at === 0 || !isPast(map._tokens, at - WORDS, line, column);
  write(map, at, line, column, originalLine, originalColumn, source, name);
  map._isSorted &&= isInOrder;
}

/** Whether a token stands behind a position. */
function isPast(tokens, at, line, column) {
  return tokens[at] > line || (tokens[at] === line && tokens[at + 1] > column);
}

/** Where a token of this position belongs, as an index of words. */
function placeFor(map, line, column) {
  if (!map._isSorted) sortedTokens(map);
  let at = map._length;
  while (at > 0 && isPast(map._tokens, at - WORDS, line, column)) at -= WORDS;
  return at;
}

/** Whether a token of a source says nothing that the one before it on its line does not say. */
function isRepeat(tokens, at, line, originalLine, originalColumn, source, name) {
  const before = at - WORDS;
  if (before < 0 || tokens[before] !== line) return false;
  const isSamePlace = tokens[before + 2] === originalLine && tokens[before + 3] === originalColumn;
  return isSamePlace && tokens[before + 4] === source && tokens[before + 5] === name;
}

/** The same for a token without a source: at the beginning of a line there is nothing that it could end. */
function isRepeatedEnd(tokens, at, line) {
  const before = at - WORDS;
  return before < 0 || tokens[before] !== line || tokens[before + 4] === NO_ID;
}

// ---- segments and mappings ----

/** A line as tokens have it, of one that counts from 0 or from 1. It throws where there is none, before the map is changed. */
function lineOf(given, what, from) {
  const line = from === 0 ? given : given - from;
  if (line >>> 0 !== line) throw new RangeError(noWord(given, `The ${what} line`, from));
  return line;
}

/** The same for a column. */
function columnOf(given, what) {
  if (given >>> 0 !== given) throw new RangeError(noWord(given, `The ${what} column`));
  return given;
}

/** The id of a source; its content counts when it is new. */
function putSource(map, source, content) {
  const id = map._sources.put(source);
  if (id === map._sourcesContent.length) map._sourcesContent[id] = content ?? null;
  return id;
}

/** Adds a token whose lines count from 0 or from 1. */
function add(map, from, givenLine, givenColumn, source, givenOriginalLine, givenOriginalColumn, name, content) {
  const line = lineOf(givenLine, 'generated', from);
  const column = columnOf(givenColumn, 'generated');
  if (!source) return append(map, line, column, 0, 0, NO_ID, NO_ID);
  const originalLine = lineOf(givenOriginalLine, 'original', from);
  const originalColumn = columnOf(givenOriginalColumn, 'original');
  const id = putSource(map, source, content);
  return append(map, line, column, originalLine, originalColumn, id, name ? map._names.put(name) : NO_ID);
}

/** The same, if the token says something new. */
function maybeAdd(map, from, givenLine, givenColumn, source, givenOriginalLine, givenOriginalColumn, name, content) {
  const line = lineOf(givenLine, 'generated', from);
  const column = columnOf(givenColumn, 'generated');
  const at = placeFor(map, line, column);
  if (!source) {
    if (!isRepeatedEnd(map._tokens, at, line)) write(map, at, line, column, 0, 0, NO_ID, NO_ID);
    return;
  }
  const originalLine = lineOf(givenOriginalLine, 'original', from);
  const originalColumn = columnOf(givenOriginalColumn, 'original');
  const id = putSource(map, source, content);
  const nameId = name ? map._names.put(name) : NO_ID;
  if (isRepeat(map._tokens, at, line, originalLine, originalColumn, id, nameId)) return;
  write(map, at, line, column, originalLine, originalColumn, id, nameId);
}

function addSegment(map, line, column, source, originalLine, originalColumn, name, content) {
  return add(map, 0, line, column, source, originalLine, originalColumn, name, content);
}

function maybeAddSegment(map, line, column, source, originalLine, originalColumn, name, content) {
  return maybeAdd(map, 0, line, column, source, originalLine, originalColumn, name, content);
}

function addMapping(map, { generated, source, original, name, content }) {
  if (!source) return add(map, 1, generated.line, generated.column);
  return add(map, 1, generated.line, generated.column, source, original.line, original.column, name, content);
}

function maybeAddMapping(map, { generated, source, original, name, content }) {
  if (!source) return maybeAdd(map, 1, generated.line, generated.column);
  return maybeAdd(map, 1, generated.line, generated.column, source, original.line, original.column, name, content);
}

// ---- sources ----

function setSourceContent(map, source, content) {
  map._sourcesContent[map._sources.put(source)] = content;
}

function setIgnore(map, source, ignore = true) {
  const id = putSource(map, source, null);
  if (ignore) map._ignoreList.add(id);
  else map._ignoreList.delete(id);
}

// ---- the map ----

/** The value of a map with these mappings. */
function valueOf(map, itsMappings) {
  const value = {
    version: 3,
    file: map.file || undefined,
    names: map._names.list.slice(),
    sourceRoot: map.sourceRoot || undefined,
    sources: map._sources.list.slice(),
    sourcesContent: map._sourcesContent.slice(),
    mappings: itsMappings,
  };
  if (map._ignoreList.size > 0) value.ignoreList = [...map._ignoreList];
  return value;
}

function toDecodedMap(map) {
  const tokens = sortedTokens(map);
  const lines = tokens.length === 0 ? 0 : tokens[tokens.length - WORDS] + 1;
  return valueOf(map, mappings.toDecoded(tokens, lines));
}

function toEncodedMap(map) {
  return valueOf(map, mappings.toText(sortedTokens(map), 0));
}

function allMappings(map) {
  const tokens = sortedTokens(map);
  return Array.from({ length: tokens.length / WORDS }, (_, i) => mappingAt(map, tokens, WORDS * i));
}

function mappingAt(map, tokens, at) {
  const generated = { line: tokens[at] + 1, column: tokens[at + 1] };
  if (tokens[at + 4] === NO_ID) return { generated, source: undefined, original: undefined, name: undefined };
  const source = map._sources.list[tokens[at + 4]];
  const original = { line: tokens[at + 2] + 1, column: tokens[at + 3] };
  const name = tokens[at + 5] === NO_ID ? undefined : map._names.list[tokens[at + 5]];
  return { generated, source, original, name };
}

/** A map that goes on from another one. Equal names, and equal sources, become one. */
function fromMap(input) {
  const from = new TraceMap(input);
  const map = new GenMapping({ file: from.file, sourceRoot: from.sourceRoot });
  const names = from.names.map((name) => map._names.put(name));
  const sources = from.sources.map((source, i) => putSource(map, source, from.sourcesContent?.[i]));
  for (const id of from.ignoreList ?? []) map._ignoreList.add(sources[id]);
  map._tokens = renumbered(tokensOf(from), sources, names);
  map._length = map._tokens.length;
  return map;
}

/** A copy of tokens with other ids. */
function renumbered(tokens, sources, names) {
  const copy = tokens.slice();
  for (let at = 0; at < copy.length; at += WORDS) {
    if (copy[at + 4] !== NO_ID) copy[at + 4] = sources[copy[at + 4]];
    if (copy[at + 5] !== NO_ID) copy[at + 5] = names[copy[at + 5]];
  }
  return copy;
}

module.exports = {
  GenMapping,
  addSegment,
  addMapping,
  maybeAddSegment,
  maybeAddMapping,
  setSourceContent,
  setIgnore,
  toDecodedMap,
  toEncodedMap,
  // Their names in versions 0.1 and 0.2.
  decodedMap: toDecodedMap,
  encodedMap: toEncodedMap,
  fromMap,
  allMappings,
};
Object.defineProperty(module.exports, '__esModule', { value: true });

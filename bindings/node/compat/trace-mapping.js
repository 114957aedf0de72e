'use strict';
// The API of @jridgewell/trace-mapping 0.3: lines of positions count from 1, those of segments from 0.
//
// A lookup of a generated position is a search in the tokens of a map, for which nothing leaves JavaScript. Lookups of original
// positions go over all tokens at first, and ask the library, by its index, once there are many.

const { Direction } = require('../lib/index.js');
const { noWord } = require('../lib/arguments.js');
const { FlattenMap } = require('./flatten-map.js');
const mappings = require('./mappings.js');
const { WORDS, NO_ID } = mappings;
const {
  TraceMap,
  tokensOf,
  startsOf,
  encodedMappings,
  decodedMappings,
  decodedMap,
  encodedMap,
  presortedDecodedMap,
} = require('./trace-map.js');

const LEAST_UPPER_BOUND = -1;
const GREATEST_LOWER_BOUND = 1;

const LINE_TOO_SMALL = '`line` must be greater than 0 (lines start at line 1)';
const COLUMN_TOO_SMALL = '`column` must be greater than or equal to 0 (columns start at column 0)';

/** How many lookups of original positions go over all tokens, before the library makes an index, which costs more than as many. */
const SCANS = 32;

// ---- from generated to original positions ----

/** The index of the token that answers for a generated position, from 0; -1 if there is none. The line is `given` as its caller counts
 *  lines, from 0 or from 1. */
function find(map, line, column, bias, given, from) {
  const starts = map._starts ?? startsOf(map);
  const tokens = map._tokens;
  if (line >= starts.length - 1) return -1;
  if (line >>> 0 !== line) throw new TypeError(noWord(given, '`line`', from));
  if (bias === LEAST_UPPER_BOUND) return mappings.findAfter(tokens, starts, line, column);
  return mappings.findBefore(tokens, starts, line, column);
}

function traceSegment(map, line, column) {
  const index = find(map, line, column, GREATEST_LOWER_BOUND, line, 0);
  if (index < 0) return null;
  return map._decoded === undefined ? mappings.segmentAt(map._tokens, WORDS * index) : map._decoded[line][index - map._starts[line]];
}

function checkPlace(line, column) {
  if (line < 1) throw new Error(LINE_TOO_SMALL);
  if (column < 0) throw new Error(COLUMN_TOO_SMALL);
}

function originalPositionFor(map, { line, column, bias }) {
  checkPlace(line, column);
  const index = find(map, line - 1, column, bias || GREATEST_LOWER_BOUND, line, 1);
  if (index < 0) return { source: null, line: null, column: null, name: null };
  const tokens = map._tokens;
  const at = WORDS * index;
  const source = tokens[at + 4];
  if (source === NO_ID) return { source: null, line: null, column: null, name: null };
  const name = tokens[at + 5];
  return {
    source: map.resolvedSources[source],
    line: tokens[at + 2] + 1,
    column: tokens[at + 3],
    name: name === NO_ID ? null : map.names[name],
  };
}

function eachMapping(map, callback) {
  const tokens = tokensOf(map);
  const { names, resolvedSources } = map;
  for (let at = 0; at < tokens.length; at += WORDS) {
    const source = tokens[at + 4];
    const name = tokens[at + 5];
    const isMapped = source !== NO_ID;
    callback({
      generatedLine: tokens[at] + 1,
      generatedColumn: tokens[at + 1],
      source: isMapped ? resolvedSources[source] : null,
      originalLine: isMapped ? tokens[at + 2] + 1 : null,
      originalColumn: isMapped ? tokens[at + 3] : null,
      name: isMapped && name !== NO_ID ? names[name] : null,
    });
  }
}

// ---- from original to generated positions ----

/** The id of a source by its name, as it is listed or resolved; -1 if there is none. */
function sourceId({ sources, resolvedSources }, source) {
  const listed = sources.indexOf(source);
  return listed < 0 ? resolvedSources.indexOf(source) : listed;
}

/** The question that a place of a source is; null if nothing answers. */
function reverseQuestion(map, { source, line, column }, bias) {
  checkPlace(line, column);
  const id = sourceId(map, source);
  const isUpper = bias === LEAST_UPPER_BOUND;
  // What is no column is before the first one, and a column may lie between two, or be Infinity.
  const asked = Number.isNaN(Number(column)) ? -Infinity : column;
  const whole = isUpper ? Math.max(0, Math.ceil(asked)) : Math.min(NO_ID, Math.floor(asked));
  if (id < 0 || (line - 1) >>> 0 !== line - 1 || whole >>> 0 !== whole) return null;
  return { id, line: line - 1, column, whole, isUpper };
}

/** The maps of the library, with an index, of TraceMaps. They stand beside these, which a message to a worker can then take. */
const INDEXED = new WeakMap();

/** The indices of all tokens that answer, by generated position: those at the column that is asked for, or else at the next one on
 *  that side which has any. The first lookups in a map go over its tokens; many are worth an index. */
function findAll(map, question) {
  map._scans = (map._scans ?? 0) + 1;
  if (map._scans <= SCANS) return scan(tokensOf(map), question);
  if (!INDEXED.has(map)) INDEXED.set(map, mappings.mapOf(tokensOf(map)));
  const { id, line, whole, isUpper } = question;
  return INDEXED.get(map).allGenerated(id, line, whole, isUpper ? Direction.FROM : Direction.FOR);
}

/** The same without an index. */
function scan(tokens, { id, line, whole, isUpper }) {
  let found = [];
  let best = isUpper ? Infinity : -1;
  for (let at = 0; at < tokens.length; at += WORDS) {
    if (tokens[at + 4] !== id || tokens[at + 2] !== line) continue;
    const column = tokens[at + 3];
    const isNearer = isUpper ? column >= whole && column < best : column <= whole && column > best;
    if (isNearer) {
      best = column;
      found = [];
    }
    if (column === best) found.push(at / WORDS);
  }
  return found;
}

/** The index of the one token that answers, or -1: of those at the column itself the first for the lower bound, and the last for the
 *  upper one; of those at another column the one that is next to it in this order. */
function findOne(map, question) {
  const all = findAll(map, question);
  if (all.length === 0) return -1;
  const isThere = map._tokens[WORDS * all[0] + 3] === question.column;
  return isThere === question.isUpper ? all.at(-1) : all[0];
}

function generatedAt({ _tokens: tokens }, index) {
  return { line: tokens[WORDS * index] + 1, column: tokens[WORDS * index + 1] };
}

function generatedPositionFor(map, needle) {
  const question = reverseQuestion(map, needle, needle.bias || GREATEST_LOWER_BOUND);
  const index = question === null ? -1 : findOne(map, question);
  return index < 0 ? { line: null, column: null } : generatedAt(map, index);
}

function allGeneratedPositionsFor(map, needle) {
  const question = reverseQuestion(map, needle, needle.bias || LEAST_UPPER_BOUND);
  return question === null ? [] : Array.from(findAll(map, question), (index) => generatedAt(map, index));
}

// ---- sources ----

function sourceContentFor(map, source) {
  const id = sourceId(map, source);
  return id < 0 ? null : (map.sourcesContent?.[id] ?? null);
}

function isIgnored(map, source) {
  const id = sourceId(map, source);
  return id >= 0 && map.ignoreList != null && map.ignoreList.includes(id);
}

/** What was mended in the mappings of a map, in the order in which it was met. */
function mends(map) {
  tokensOf(map);
  return [...map._mends];
}

module.exports = {
  TraceMap,
  FlattenMap,
  AnyMap: FlattenMap,
  LEAST_UPPER_BOUND,
  GREATEST_LOWER_BOUND,
  encodedMappings,
  decodedMappings,
  traceSegment,
  originalPositionFor,
  generatedPositionFor,
  allGeneratedPositionsFor,
  eachMapping,
  sourceContentFor,
  isIgnored,
  presortedDecodedMap,
  decodedMap,
  encodedMap,
  mends,
};
Object.defineProperty(module.exports, '__esModule', { value: true });

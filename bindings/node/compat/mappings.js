'use strict';
// Mappings in their three forms: the text, decoded ones (an array of lines, each an array of segments, as the @jridgewell packages
// have them), and the tokens of the library, six numbers each.

const { NO_ID, SourceMap, SourceMapBuilder } = require('../lib/index.js');
const { lineStarts, findBefore, findAfter } = require('../lib/columns.js');
const { MENDS } = require('../lib/constants.js');
const { WORDS, shortTokens, decodedLines, lineCount, readDecoded, segmentAt, toDecoded, toText } = require('../lib/decoded.js');
const native = require('../lib/native.js');

const NOTHING_MENDED = Object.freeze([]);

/** A mend as the library tells it. */
function mend(kind, section = null, number = 0) {
  const words = Uint32Array.of(MENDS.indexOf(kind), 0, section ?? NO_ID, section === null ? NO_ID : 0, number, 0);
  return { kind, section, number, message: native.mendMessage(words) };
}

// ---- from a text ----

/**
 * The sorted tokens of a mappings text, its lines, and what was mended. Throws a SourceMapError of the first fault that is not mended.
 */
function readText(text, { sources = NO_ID, names = NO_ID } = {}) {
  let map;
  try {
    const tokens = shortTokens(text, sources, names);
    if (tokens !== null) return { tokens, lines: lineCount(text), mends: NOTHING_MENDED };
    map = SourceMap.fromMappings(text, { sources, names });
  } catch (error) {
    return mended(text, sources, names, error);
  }
  const isSorted = map.isSorted;
  const tokens = taken(map, isSorted ? undefined : () => map.sort());
  return { tokens, lines: lineCount(text), mends: isSorted ? NOTHING_MENDED : [mend('UNSORTED')] };
}

/** The tokens of a map that nobody else has, once it was changed. */
function taken(map, change) {
  try {
    change?.();
    return map.tokens();
  } finally {
    map.free();
  }
}

/** What a text gives whose ids go past these numbers: the reader of maps as they are found takes it, or its error is thrown. */
function mended(text, sources, names, error) {
  const isAboutIds = error.code === 'SMAP_BAD_SOURCE_REFERENCE' || error.code === 'SMAP_BAD_NAME_REFERENCE';
  if (!isAboutIds || sources === NO_ID || names === NO_ID) throw error;
  const list = (length) => new Array(length).fill('');
  const value = { version: 3, sources: list(sources), names: list(names), mappings: text };
  const { map, mends } = SourceMap.found(JSON.stringify(value));
  return { tokens: taken(map), lines: lineCount(text), mends };
}

/** Whether all ids of tokens are below these numbers of sources and names. */
function areIdsWithin(tokens, sources, names) {
  for (let at = 4; at < tokens.length; at += WORDS) {
    if (tokens[at] >= sources && tokens[at] !== NO_ID) return false;
    if (tokens[at + 1] >= names && tokens[at + 1] !== NO_ID) return false;
  }
  return true;
}

// ---- in order ----

/** A map of the library with these tokens, and without names and sources. */
function mapOf(tokens) {
  const builder = new SourceMapBuilder();
  try {
    builder.addTokens(tokens);
    return builder.finish();
  } finally {
    builder.free();
  }
}

/** The tokens sorted by generated position; those at one position keep their order. */
function sorted(tokens) {
  const map = mapOf(tokens);
  return taken(map, () => map.sort());
}

module.exports = {
  WORDS,
  NO_ID,
  NOTHING_MENDED,
  mend,
  lineCount,
  readText,
  shortTokens,
  decodedLines,
  readDecoded,
  mended,
  areIdsWithin,
  segmentAt,
  toDecoded,
  toText,
  mapOf,
  sorted,
  lineStarts,
  findBefore,
  findAfter,
};

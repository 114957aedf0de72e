'use strict';
// The class TraceMap, and its mappings in their forms. The library reads them, into tokens that are kept as one typed array.

const { sourceResolver } = require('./urls.js');
const mappings = require('./mappings.js');

/**
 * A map to look things up in. What `_encoded`, `_decoded` and `_decodedMemo` hold is as the package has it, so that a map of the
 * one goes into functions of the other.
 */
class TraceMap {
  constructor(map, mapUrl) {
    const isText = typeof map === 'string';
    if (!isText && map._decodedMemo) return map;
    const value = isText ? JSON.parse(map) : map;
    if (!Array.isArray(value.sources)) throw new TypeError(withoutSources(value));
    const { version, file, names, sourceRoot, sources, sourcesContent } = value;
    this.version = version;
    this.file = file;
    this.names = names ?? [];
    this.sourceRoot = sourceRoot;
    this.sources = sources;
    this.sourcesContent = sourcesContent;
    this.ignoreList = value.ignoreList ?? value.x_google_ignoreList ?? undefined;
    this.resolvedSources = sources.map(sourceResolver(sourceRoot, mapUrl));
    const isEncoded = typeof value.mappings === 'string';
    this._encoded = isEncoded ? value.mappings : undefined;
    this._decoded = isEncoded ? undefined : inOrder(value.mappings);
    this._decodedMemo = { lastKey: -1, lastNeedle: -1, lastIndex: -1 };
    this._tokens = undefined;
    this._lines = 0;
    this._starts = undefined;
    this._scans = 0;
    const isAsGiven = isEncoded || this._decoded === value.mappings;
    this._mends = isAsGiven ? mappings.NOTHING_MENDED : [mappings.mend('UNSORTED')];
  }
}

function withoutSources(value) {
  if ('sections' in value) return 'The map has sections, which FlattenMap reads';
  return 'The map has no list of sources';
}

// ---- decoded mappings as they are given ----

/** Decoded mappings whose lines are sorted; these themselves if they are, and else a copy. */
function inOrder(decoded) {
  if (!Array.isArray(decoded)) throw new TypeError('The mappings are neither a text nor an array of lines');
  const at = decoded.findIndex((line) => !isInOrder(line));
  if (at < 0) return decoded;
  return decoded.map((line) => (isInOrder(line) ? line : line.slice().sort((a, b) => a[0] - b[0])));
}

function isInOrder(line) {
  for (let i = 1; i < line.length; i++) {
    if (line[i][0] < line[i - 1][0]) return false;
  }
  return true;
}

// ---- tokens ----

/** The tokens of a map, which are read when they are needed first. */
function tokensOf(map) {
  return map._tokens ?? readTokens(map);
}

function readTokens(map) {
  const limits = { sources: map.sources.length, names: map.names?.length ?? 0 };
  const read = map._decoded === undefined ? mappings.readText(map._encoded, limits) : readGiven(map._decoded, limits);
  map._mends = read.mends.length === 0 ? (map._mends ?? read.mends) : [...(map._mends ?? []), ...read.mends];
  map._lines = read.lines;
  map._tokens = read.tokens;
  return read.tokens;
}

/** The index of the first token of each line, and one past the last token. */
function startsOf(map) {
  map._starts ??= mappings.lineStarts(tokensOf(map), map._lines);
  return map._starts;
}

/** The tokens of decoded mappings. Those that have ids out of range go by way of a text, whose reader mends them. */
function readGiven(decoded, limits) {
  const tokens = mappings.readDecoded(decoded);
  const lines = decoded.length;
  if (mappings.areIdsWithin(tokens, limits.sources, limits.names)) return { tokens, lines, mends: mappings.NOTHING_MENDED };
  return mappings.readText(mappings.toText(tokens, lines), limits);
}

// ---- the forms of the mappings ----

function encodedMappings(map) {
  map._encoded ??= mappings.toText(tokensOf(map), map._lines);
  return map._encoded;
}

function decodedMappings(map) {
  map._decoded ??= mappings.toDecoded(tokensOf(map), map._lines);
  return map._decoded;
}

/** The value of a map with these mappings. */
function valueOf(map, itsMappings) {
  const { version, file, names, sourceRoot, sources, sourcesContent, ignoreList } = map;
  const value = { version, file, names, sourceRoot, sources, sourcesContent, mappings: itsMappings };
  if (ignoreList) value.ignoreList = ignoreList;
  return value;
}

const decodedMap = (map) => valueOf(map, decodedMappings(map));
const encodedMap = (map) => valueOf(map, encodedMappings(map));

function presortedDecodedMap(map, mapUrl) {
  const made = new TraceMap(valueOf(map, []), mapUrl);
  made._decoded = map.mappings;
  return made;
}

module.exports = { TraceMap, tokensOf, startsOf, encodedMappings, decodedMappings, decodedMap, encodedMap, presortedDecodedMap };

'use strict';
// Maps with sections, read as one. A section ends where the next one begins; sources are resolved, so that each keeps its root.

const { noWord } = require('../lib/arguments.js');
const mappings = require('./mappings.js');
const { TraceMap, tokensOf } = require('./trace-map.js');
const { WORDS, NO_ID } = mappings;

const START = { line: 0, column: 0 };
const NO_END = { line: Infinity, column: Infinity };

/**
 * A TraceMap of any map: one with sections, which may have sections, too, becomes one without. It is called with or without `new`.
 */
function FlattenMap(map, mapUrl) {
  const value = typeof map === 'string' ? JSON.parse(map) : map;
  if (!('sections' in value)) return new TraceMap(value, mapUrl);
  return joined(value.file, partsOf(value, mapUrl, START, NO_END));
}

// ---- the parts of a map ----

/** The maps of all sections, with the place where each begins, and where the next one does. */
function partsOf({ sections }, mapUrl, begin, end, section = null) {
  return sections.flatMap(({ map, offset }, i) => {
    const from = placeOf(begin, offset);
    const next = i + 1 < sections.length ? placeOf(begin, sections[i + 1].offset) : NO_END;
    const value = typeof map === 'string' ? JSON.parse(map) : map;
    const part = { from, to: isBefore(next, end) ? next : end, section: section ?? i };
    if ('sections' in value) return partsOf(value, mapUrl, part.from, part.to, part.section);
    return [{ ...part, map: new TraceMap(value, mapUrl) }];
  });
}

/** The place of an offset in the code of the whole map. */
function placeOf(begin, { line, column }) {
  if (line >>> 0 !== line) throw new RangeError(noWord(line, 'The line of a section'));
  if (column >>> 0 !== column) throw new RangeError(noWord(column, 'The column of a section'));
  return { line: begin.line + line, column: line === 0 ? begin.column + column : column };
}

function isBefore(a, b) {
  return a.line < b.line || (a.line === b.line && a.column < b.column);
}

// ---- the whole ----

function joined(file, parts) {
  const names = [];
  const sources = [];
  const sourcesContent = [];
  const ignoreList = [];
  const pieces = [];
  for (const part of parts) {
    const { map } = part;
    pieces.push(tokensAt(part, sources.length, names.length));
    for (const id of map.ignoreList ?? []) ignoreList.push(id + sources.length);
    for (const name of map.names) names.push(name);
    map.resolvedSources.forEach((source, i) => {
      sources.push(source);
      sourcesContent.push(map.sourcesContent?.[i] ?? null);
    });
  }
  const value = { version: 3, file, names, sources, sourcesContent, mappings: '' };
  if (ignoreList.length > 0) value.ignoreList = ignoreList;
  return withTokens(new TraceMap(value), parts, pieces);
}

/** Gives a map the tokens of its parts. */
function withTokens(map, parts, pieces) {
  const lines = parts.reduce((most, part) => Math.max(most, endLine(part)), 0);
  const tokens = inOrder(concatenated(pieces));
  map._encoded = undefined;
  map._tokens = tokens;
  map._lines = lines;
  map._mends = parts.flatMap(({ map: { _mends: mends, _tokens: all }, section }, i) => {
    const cut = (all.length - pieces[i].length) / WORDS;
    const told = mends.map(({ kind, number }) => mappings.mend(kind, section, number));
    return cut > 0 ? [...told, mappings.mend('CUT', section, cut)] : told;
  });
  return map;
}

/** One past the last line that a part has. */
function endLine({ map, from, to }) {
  return Math.min(from.line + map._lines, to.line + 1);
}

function concatenated(pieces) {
  const all = new Uint32Array(pieces.reduce((sum, piece) => sum + piece.length, 0));
  let at = 0;
  for (const piece of pieces) {
    all.set(piece, at);
    at += piece.length;
  }
  return all;
}

/** Sections that are not in order of their offsets give tokens that are not. */
function inOrder(tokens) {
  for (let at = WORDS; at < tokens.length; at += WORDS) {
    const before = at - WORDS;
    const isBack = tokens[at] < tokens[before] || (tokens[at] === tokens[before] && tokens[at + 1] < tokens[before + 1]);
    if (isBack) return mappings.sorted(tokens);
  }
  return tokens;
}

/** The tokens of a part as they stand in the whole, as far as the next part. */
function tokensAt({ map, from, to }, sources, names) {
  const tokens = tokensOf(map).slice();
  for (let at = 0; at < tokens.length; at += WORDS) {
    const column = tokens[at + 1] + (tokens[at] === 0 ? from.column : 0);
    const line = tokens[at] + from.line;
    if (!isBefore({ line, column }, to)) return tokens.slice(0, at);
    if (line >= NO_ID || column > NO_ID) throw new RangeError(`A section has a mapping at line ${line} and column ${column}`);
    tokens[at] = line;
    tokens[at + 1] = column;
    if (tokens[at + 4] !== NO_ID) tokens[at + 4] += sources;
    if (tokens[at + 5] !== NO_ID) tokens[at + 5] += names;
  }
  return tokens;
}

module.exports = { FlattenMap };

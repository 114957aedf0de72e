'use strict';
// The generator of the package source-map. It is a function, since its users inherit from it by `call`, too.

const { encodeMappings } = require('../../lib/index.js');
const { Texts } = require('../texts.js');
const { required, optional } = require('./arguments.js');
const { NO_ID, WORDS, Field, TokenList, sortByFields, pick } = require('./tokens.js');
const urls = require('./urls.js');

const { LINE, COLUMN, ORIGINAL_LINE, ORIGINAL_COLUMN, SOURCE, NAME } = Field;
const VERSION = 3;
const LAST_WORD = 0xffffffff;

function SourceMapGenerator(options) {
  const given = options || {};
  this._file = optional(given, 'file', null);
  this._sourceRoot = optional(given, 'sourceRoot', null);
  this._skipValidation = optional(given, 'skipValidation', false);
  this._ignoresInvalid = optional(given, 'ignoreInvalidMapping', false); // of source-map-js
  this._sources = new Texts();
  this._names = new Texts();
  this._tokens = new TokenList();
  this._isSorted = true;
  this._lastLine = -1;
  this._lastColumn = -1;
  this._contents = new Map();
}

const generator = SourceMapGenerator.prototype;

generator._version = VERSION;

SourceMapGenerator.fromSourceMap = function (consumer, options) {
  const made = new SourceMapGenerator({ ...options, file: consumer.file, sourceRoot: consumer.sourceRoot });
  consumer.eachMapping((mapping) => made._addMappingOf(mapping));
  for (const source of consumer.sources) {
    made._sources.put(String(made._relative(source)));
    const content = consumer.sourceContentFor(source);
    if (content != null) made.setSourceContent(source, content);
  }
  return made;
};

/** Adds a mapping as a consumer tells it. */
generator._addMappingOf = function (mapping) {
  const generated = { line: mapping.generatedLine, column: mapping.generatedColumn };
  if (mapping.source == null) {
    this.addMapping({ generated });
    return;
  }
  const original = { line: mapping.originalLine, column: mapping.originalColumn };
  this.addMapping({ generated, original, source: this._relative(mapping.source), name: mapping.name });
};

/** A source as it is told from the root. */
generator._relative = function (source) {
  return this._sourceRoot == null ? source : urls.relative(this._sourceRoot, source);
};

generator.addMapping = function (args) {
  const generated = required(args, 'generated');
  const { original = null, source = null, name = null } = args;
  try {
    if (!this._skipValidation) this._validateMapping(generated, original, source, name);
    this._addToken(generated, original, source, name);
  } catch (error) {
    if (!this._ignoresInvalid) throw error;
    console.warn(error.message);
  }
};

/** The whole part of a number; -1 if a map can not have it. */
function wordOf(number) {
  if (number >>> 0 === number) return number;
  const whole = Math.trunc(number);
  return whole >= 0 && whole <= LAST_WORD ? whole : -1;
}

/** Adds what a mapping says. Without an original position or a source it is unmapped. */
generator._addToken = function (generated, original, source, name) {
  const isMapped = source != null && original != null;
  const line = wordOf(generated.line - 1);
  const column = wordOf(generated.column);
  const originalLine = isMapped ? wordOf(original.line - 1) : 0;
  const originalColumn = isMapped ? wordOf(original.column) : 0;
  if (line < 0 || column < 0 || originalLine < 0 || originalColumn < 0) {
    throw invalidMapping(generated, original, source, name);
  }
  const sourceId = source == null ? NO_ID : this._sources.put(String(source));
  const nameId = name == null ? NO_ID : this._names.put(String(name));
  this._tokens.add(line, column, originalLine, originalColumn, isMapped ? sourceId : NO_ID, isMapped ? nameId : NO_ID);
  this._noteOrder(line, column);
};

/** Notes whether tokens come by generated position: else they are sorted when they are written. */
generator._noteOrder = function (line, column) {
  if (line < this._lastLine || (line === this._lastLine && column < this._lastColumn)) {
    this._isSorted = false;
    return;
  }
  this._lastLine = line;
  this._lastColumn = column;
};

function isPosition(it, from) {
  return Boolean(it) && 'line' in it && 'column' in it && it.line >= from && it.column >= 0;
}

function invalidMapping(generated, original, source, name) {
  return new Error(`Invalid mapping: ${JSON.stringify({ generated, source, original, name })}`);
}

generator._validateMapping = function (generated, original, source, name) {
  if (original && typeof original.line !== 'number' && typeof original.column !== 'number') {
    throw new Error(
      'original.line and original.column are not numbers: to map a generated position alone, pass null for the original one, or none',
    );
  }
  const isAlone = !original && !source && !name;
  const isWhole = isPosition(original, 1) && Boolean(source);
  if (!isPosition(generated, 1) || !(isAlone || isWhole)) throw invalidMapping(generated, original, source, name);
};

generator.setSourceContent = function (sourceFile, content) {
  const source = String(this._relative(sourceFile));
  if (content == null) this._contents.delete(source);
  else this._contents.set(source, content);
};

/**
 * Leads the mappings of one source through its own map. Those that it has no answer for stay as they are.
 */
generator.applySourceMap = function (consumer, sourceFile, sourceMapPath) {
  const applied = sourceFile ?? consumer.file;
  if (applied == null) {
    throw new Error(
      'SourceMapGenerator.prototype.applySourceMap requires a source file: neither an argument nor the "file" of the map says which',
    );
  }
  const pathOf = (source) => this._relative(sourceMapPath == null ? source : urls.join(sourceMapPath, source));
  this._retrace(this._sources.ids.get(this._relative(applied)), consumer, pathOf);
  for (const source of consumer.sources) {
    const content = consumer.sourceContentFor(source);
    if (content != null) this.setSourceContent(pathOf(source), content);
  }
};

/** Replaces the original positions in one source, and counts ids anew, in the order in which the mappings were added. */
generator._retrace = function (appliedId, consumer, pathOf) {
  const { words } = this._tokens;
  const oldSources = this._sources.list;
  const oldNames = this._names.list;
  this._sources = new Texts();
  this._names = new Texts();
  for (let at = 0; at < words.length; at += WORDS) {
    const found = words[at + SOURCE] === appliedId ? originalAt(words, at, consumer) : null;
    this._retraceToken(words, at, found, { oldSources, oldNames, pathOf });
  }
};

/** What a consumer answers for the original position of a token; null if it has no answer. */
function originalAt(words, at, consumer) {
  const found = consumer.originalPositionFor({ line: words[at + ORIGINAL_LINE] + 1, column: words[at + ORIGINAL_COLUMN] });
  return found.source == null ? null : found;
}

generator._retraceToken = function (words, at, found, { oldSources, oldNames, pathOf }) {
  if (words[at + SOURCE] === NO_ID) return;
  const oldName = words[at + NAME] === NO_ID ? null : oldNames[words[at + NAME]];
  const name = found?.name ?? oldName;
  words[at + NAME] = name === null ? NO_ID : this._names.put(name);
  words[at + SOURCE] = this._sources.put(found === null ? oldSources[words[at + SOURCE]] : pathOf(found.source));
  if (found === null) return;
  words[at + ORIGINAL_LINE] = found.line - 1;
  words[at + ORIGINAL_COLUMN] = found.column;
};

/** For each id the place of its text among all of them, sorted. */
function ranksOf(texts) {
  const sorted = texts.map((_, id) => id).sort((a, b) => (texts[a] < texts[b] ? -1 : 1));
  const ranks = new Uint32Array(texts.length);
  sorted.forEach((id, rank) => (ranks[id] = rank));
  return ranks;
}

/** The tokens by generated position; those at one position are in the order in which they were added if all came in order, else by
 *  their sources, original positions and names. */
generator._sortedWords = function () {
  const { words } = this._tokens;
  if (this._isSorted) return words;
  const ranks = { [SOURCE]: ranksOf(this._sources.list), [NAME]: ranksOf(this._names.list) };
  const fields = [LINE, COLUMN, SOURCE, ORIGINAL_LINE, ORIGINAL_COLUMN, NAME];
  return pick(words, sortByFields(words, fields, ranks));
};

function isRepeat(words, at) {
  for (let field = 0; field < WORDS; field++) {
    if (words[at + field] !== words[at - WORDS + field]) return false;
  }
  return true;
}

/** The tokens without those that say what the one before them says; the same ones where there are none. */
function withoutRepeats(words) {
  let first = WORDS;
  while (first < words.length && !isRepeat(words, first)) first += WORDS;
  if (first >= words.length) return words;
  const kept = new Uint32Array(words.length);
  let to = 0;
  for (let at = 0; at < words.length; at += WORDS) {
    if (at > 0 && isRepeat(words, at)) continue;
    for (let field = 0; field < WORDS; field++) kept[to++] = words[at + field];
  }
  return kept.subarray(0, to);
}

generator._serializeMappings = function () {
  return encodeMappings(withoutRepeats(this._sortedWords()));
};

generator._sourcesContentOf = function (sources) {
  return sources.map((source) => this._contents.get(this._relative(source)) ?? null);
};

/** What a consumer is made of. */
generator._snapshot = function () {
  const sources = this._sources.list.slice();
  return {
    names: this._names.list.slice(),
    sources,
    sourcesContent: this._sourcesContentOf(sources),
    words: this._sortedWords().slice(),
  };
};

generator.toJSON = function () {
  const sources = this._sources.list.slice();
  const map = { version: VERSION, sources, names: this._names.list.slice(), mappings: this._serializeMappings() };
  if (this._file != null) map.file = this._file;
  if (this._sourceRoot != null) map.sourceRoot = this._sourceRoot;
  if (this._contents.size > 0) map.sourcesContent = this._sourcesContentOf(sources);
  return map;
};

generator.toString = function () {
  return JSON.stringify(this.toJSON());
};

module.exports = { SourceMapGenerator };

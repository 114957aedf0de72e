'use strict';
// The consumers of the package source-map. They are functions, since its users call them without `new`, and look at the prototypes.

const { Bias } = require('../../lib/constants.js');
const { Texts } = require('../texts.js');
const { required, optional, checkPosition } = require('./arguments.js');
const { Table } = require('./table.js');
const { NO_ID, WORDS, Field, TokenList } = require('./tokens.js');
const urls = require('./urls.js');

const VERSION = 3;
const GREATEST_LOWER_BOUND = 1;
const LEAST_UPPER_BOUND = 2;
const GENERATED_ORDER = 1;
const ORIGINAL_ORDER = 2;

// A line that keeps a JSON text from being run as a script.
const JSON_PREFIX = /^\)]}'[^\n]*\n/;

function valueOf(map) {
  return typeof map === 'string' ? JSON.parse(map.replace(JSON_PREFIX, '')) : map;
}

function checkVersion(version) {
  if (Number(version) !== VERSION) throw new Error(`Unsupported version: ${version}`);
}

function biasOf(args) {
  return Number(optional(args, 'bias', GREATEST_LOWER_BOUND)) === LEAST_UPPER_BOUND ? Bias.AFTER : Bias.BEFORE;
}

/** What a list has for an id. */
function entryAt(list, id) {
  if (id < list.length) return list[id];
  throw new Error(`No element indexed by ${id}`);
}

/** A consumer of a map, or of an indexed map, by what it is given: the JSON text or its value. */
function SourceMapConsumer(sourceMap, sourceMapURL) {
  const map = valueOf(sourceMap);
  return map.sections != null
    ? new IndexedSourceMapConsumer(map, sourceMapURL)
    : new BasicSourceMapConsumer(map, sourceMapURL);
}

SourceMapConsumer.GENERATED_ORDER = GENERATED_ORDER;
SourceMapConsumer.ORIGINAL_ORDER = ORIGINAL_ORDER;
SourceMapConsumer.GREATEST_LOWER_BOUND = GREATEST_LOWER_BOUND;
SourceMapConsumer.LEAST_UPPER_BOUND = LEAST_UPPER_BOUND;

SourceMapConsumer.fromSourceMap = function (generator, sourceMapURL) {
  return BasicSourceMapConsumer.fromSourceMap(generator, sourceMapURL);
};

// What both kinds have. Each kind has `_table`, which is made when it is asked for, and the texts of its ids.
const shared = SourceMapConsumer.prototype;

shared._version = VERSION;

shared.eachMapping = function (callback, context, order) {
  const wanted = order || GENERATED_ORDER;
  if (wanted !== GENERATED_ORDER && wanted !== ORIGINAL_ORDER) throw new Error('Unknown order of iteration.');
  const table = this._table;
  const { words } = table;
  const indices = wanted === ORIGINAL_ORDER ? table.order : null;
  const count = indices === null ? words.length / WORDS : indices.length;
  for (let i = 0; i < count; i++) {
    callback.call(context || null, mappingAt(this, words, WORDS * (indices === null ? i : indices[i])), i);
  }
};

function mappingAt(consumer, words, at) {
  const source = words[at + Field.SOURCE];
  const name = words[at + Field.NAME];
  const isMapped = source !== NO_ID;
  return {
    source: isMapped ? entryAt(consumer._absoluteSources, source) : null,
    generatedLine: words[at + Field.LINE] + 1,
    generatedColumn: words[at + Field.COLUMN],
    originalLine: isMapped ? words[at + Field.ORIGINAL_LINE] + 1 : null,
    originalColumn: isMapped ? words[at + Field.ORIGINAL_COLUMN] : null,
    name: name === NO_ID ? null : entryAt(consumer._names, name),
  };
}

function generatedAt(table, index) {
  const { words } = table;
  return {
    line: words[WORDS * index + Field.LINE] + 1,
    column: words[WORDS * index + Field.COLUMN],
    lastColumn: table.lastColumnOf(index),
  };
}

shared.originalPositionFor = function (args) {
  const line = required(args, 'line');
  const column = required(args, 'column');
  checkPosition(line, column);
  const token = typeof line === 'number' ? this._table.tokenFor(line - 1, column, biasOf(args)) : null;
  if (token === null || token.sourceId === null) return { source: null, line: null, column: null, name: null };
  return {
    source: entryAt(this._absoluteSources, token.sourceId),
    line: token.originalLine + 1,
    column: token.originalColumn,
    name: token.nameId === null ? null : entryAt(this._names, token.nameId),
  };
};

shared.generatedPositionFor = function (args) {
  const nowhere = { line: null, column: null, lastColumn: null };
  const source = this._findSourceIndex(required(args, 'source'));
  if (source < 0) return nowhere;
  const line = required(args, 'line');
  const column = required(args, 'column');
  checkPosition(line, column);
  const index = this._table.indexFor(source, line - 1, Number(column), biasOf(args));
  return index < 0 ? nowhere : generatedAt(this._table, index);
};

shared.allGeneratedPositionsFor = function (args) {
  const line = required(args, 'line');
  const source = this._findSourceIndex(required(args, 'source'));
  if (source < 0) return [];
  const { column } = args;
  checkPosition(line, column);
  const indices =
    column === undefined
      ? this._table.indicesOnLine(source, line - 1)
      : this._table.indicesAtColumn(source, line - 1, Number(column));
  return Array.from(indices, (index) => generatedAt(this._table, index));
};

shared.computeColumnSpans = function () {
  this._table.computeSpans();
};

shared.destroy = function () {
  this._madeTable?.free();
};

/** A consumer of a map that is no indexed one. */
function BasicSourceMapConsumer(sourceMap, sourceMapURL) {
  const map = valueOf(sourceMap);
  const version = required(map, 'version');
  const sources = required(map, 'sources');
  const names = optional(map, 'names', []);
  const sourceRoot = optional(map, 'sourceRoot', null);
  const sourcesContent = optional(map, 'sourcesContent', null);
  const mappings = required(map, 'mappings');
  const file = optional(map, 'file', null);
  checkVersion(version);

  const root = sourceRoot ? urls.normalize(sourceRoot) : sourceRoot;
  const listed = sources.map((source) => fromRoot(root, urls.normalize(String(source))));
  this._fill(names.map(String), listed, sourceMapURL, { sourceRoot: root, sourcesContent, file });
  this._mappings = mappings;
}

/** A source as it is found from a root, which has to be absolute, as the source. */
function fromRoot(root, source) {
  return root && urls.isAbsolute(root) && urls.isAbsolute(source) ? urls.relative(root, source) : source;
}

/** Each text and the first index at which it is listed. */
function firstIds(texts) {
  const ids = new Map();
  texts.forEach((text, id) => {
    if (!ids.has(text)) ids.set(text, id);
  });
  return ids;
}

/** For each text the first index at which it is listed; null if each is listed once. */
function repeatedIds(texts) {
  const ids = firstIds(texts);
  return ids.size === texts.length ? null : Uint32Array.from(texts, (text) => ids.get(text));
}

BasicSourceMapConsumer.prototype = Object.create(shared);
const basic = BasicSourceMapConsumer.prototype;

basic.consumer = SourceMapConsumer;

basic._fill = function (names, sources, sourceMapURL, { sourceRoot, sourcesContent, file }) {
  this._names = names;
  this._sources = sources;
  this._sourceIds = firstIds(sources);
  this._absoluteSources = sources.map((source) => urls.computeSourceURL(sourceRoot, source, sourceMapURL));
  this.sourceRoot = sourceRoot;
  this.sourcesContent = sourcesContent;
  this._sourceMapURL = sourceMapURL;
  this.file = file;
  this._mappings = null;
  this._madeTable = null;
};

BasicSourceMapConsumer.fromSourceMap = function (generator, sourceMapURL) {
  const consumer = Object.create(basic);
  const { names, sources, sourcesContent, words } = generator._snapshot();
  consumer._fill(names, sources, sourceMapURL, {
    sourceRoot: generator._sourceRoot,
    sourcesContent,
    file: generator._file,
  });
  consumer._madeTable = new Table(words);
  return consumer;
};

Object.defineProperty(basic, 'sources', {
  get() {
    return this._absoluteSources.slice();
  },
});

Object.defineProperty(basic, '_table', {
  get() {
    this._madeTable ??= Table.ofMappings(this._mappings, repeatedIds(this._sources));
    return this._madeTable;
  },
});

/** The index of a source, as it is listed or as `sources` tells it; else -1. */
basic._findSourceIndex = function (source) {
  return this._sourceIds.get(this._relative(source)) ?? this._absoluteSources.indexOf(source);
};

basic._relative = function (source) {
  return this.sourceRoot == null ? source : urls.relative(this.sourceRoot, source);
};

basic.hasContentsOfAllSources = function () {
  const contents = this.sourcesContent;
  if (!contents) return false;
  return contents.length >= this._sourceIds.size && contents.every((content) => content != null);
};

/** The index of a source that is told by a URL, where the root is one without a path or one of a file; else -1. */
basic._findSourceOfURL = function (source) {
  const root = this.sourceRoot == null ? null : urls.urlParse(this.sourceRoot);
  if (root === null) return -1;
  const path = source.replace(/^file:\/\//, '');
  if (root.scheme === 'file' && this._sourceIds.has(path)) return this._sourceIds.get(path);
  return !root.path || root.path === '/' ? (this._sourceIds.get(`/${source}`) ?? -1) : -1;
};

basic.sourceContentFor = function (source, nullOnMissing) {
  if (!this.sourcesContent) return null;
  const index = this._findSourceIndex(source);
  if (index >= 0) return this.sourcesContent[index];
  const relative = this._relative(source);
  const ofURL = this._findSourceOfURL(relative);
  if (ofURL >= 0) return this.sourcesContent[ofURL];
  if (nullOnMissing) return null;
  throw new Error(`"${relative}" is not in the SourceMap.`);
};

/** A consumer of an indexed map: lookups of generated positions go to the section that they are in, all others to the sections joined. */
function IndexedSourceMapConsumer(sourceMap, sourceMapURL) {
  const map = valueOf(sourceMap);
  const version = required(map, 'version');
  const sections = required(map, 'sections');
  checkVersion(version);
  let last = { line: -1, column: 0 };
  this._sections = sections.map((section) => {
    const next = sectionOf(section, last, sourceMapURL);
    last = next;
    return next;
  });
  this._madeTable = null;
  this._absoluteSources = null;
  this._names = null;
}

function sectionOf(section, last, sourceMapURL) {
  if (section.url) throw new Error('Support for url field in sections not implemented.');
  const offset = required(section, 'offset');
  const line = required(offset, 'line');
  const column = required(offset, 'column');
  if (line < last.line || (line === last.line && column < last.column)) {
    throw new Error('Section offsets must be ordered and non-overlapping.');
  }
  return { line, column, consumer: new SourceMapConsumer(required(section, 'map'), sourceMapURL) };
}

IndexedSourceMapConsumer.prototype = Object.create(shared);
const indexed = IndexedSourceMapConsumer.prototype;

indexed.constructor = SourceMapConsumer;

Object.defineProperty(indexed, 'sources', {
  get() {
    return this._sections.flatMap(({ consumer }) => consumer.sources);
  },
});

Object.defineProperty(indexed, '_table', {
  get() {
    if (this._madeTable === null) this._join();
    return this._madeTable;
  },
});

/** Makes one table of all sections. Sources and names of equal texts get one id. */
indexed._join = function () {
  const all = { tokens: new TokenList(), sources: new Texts(), names: new Texts() };
  for (const section of this._sections) addSection(section, all);
  this._absoluteSources = all.sources.list;
  this._names = all.names.list;
  this._madeTable = Table.ofTokens(all.tokens.words);
};

function addSection({ line, column, consumer }, { tokens, sources, names }) {
  const { words } = consumer._table;
  const sourceIds = consumer._absoluteSources.map((source) => sources.put(source));
  const nameIds = consumer._names.map((name) => names.put(name));
  for (let at = 0; at < words.length; at += WORDS) {
    const source = words[at + Field.SOURCE];
    const name = words[at + Field.NAME];
    tokens.add(
      words[at + Field.LINE] + line,
      words[at + Field.COLUMN] + (words[at + Field.LINE] === 0 ? column : 0),
      words[at + Field.ORIGINAL_LINE],
      words[at + Field.ORIGINAL_COLUMN],
      source === NO_ID ? NO_ID : entryAt(sourceIds, source),
      name === NO_ID ? NO_ID : entryAt(nameIds, name),
    );
  }
}

indexed.destroy = function () {
  shared.destroy.call(this);
  for (const { consumer } of this._sections) consumer.destroy();
};

/** The id of a source in the whole, as the first section finds it that has it; else -1. */
indexed._findSourceIndex = function (source) {
  if (this._madeTable === null) this._join();
  const section = this._sections.find(({ consumer }) => consumer._findSourceIndex(source) >= 0);
  if (section === undefined) return -1;
  const { consumer } = section;
  return this._absoluteSources.indexOf(consumer._absoluteSources[consumer._findSourceIndex(source)]);
};

/** The last section that begins at or before a position, counted from 0. */
indexed._sectionAt = function (line, column) {
  return this._sections.findLast((section) => section.line < line || (section.line === line && section.column <= column));
};

indexed.originalPositionFor = function (args) {
  const line = required(args, 'line') - 1;
  const column = required(args, 'column');
  const section = this._sectionAt(line, column);
  if (section === undefined) return { source: null, line: null, column: null, name: null };
  return section.consumer.originalPositionFor({
    line: line - section.line + 1,
    column: column - (line === section.line ? section.column : 0),
    bias: args.bias,
  });
};

indexed.generatedPositionFor = function (args) {
  const { line, column } = shared.generatedPositionFor.call(this, args);
  return { line, column };
};

indexed.hasContentsOfAllSources = function () {
  return this._sections.every(({ consumer }) => consumer.hasContentsOfAllSources());
};

indexed.sourceContentFor = function (source, nullOnMissing) {
  for (const { consumer } of this._sections) {
    const content = consumer.sourceContentFor(source, true);
    if (content != null) return content;
  }
  const isListed = this._sections.some(({ consumer }) => consumer._findSourceIndex(source) >= 0);
  if (isListed || nullOnMissing) return null;
  throw new Error(`"${source}" is not in the SourceMap.`);
};

module.exports = { SourceMapConsumer, BasicSourceMapConsumer, IndexedSourceMapConsumer };

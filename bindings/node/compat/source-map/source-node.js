'use strict';
// The tree of code of the package source-map. It is a function, since its users inherit from it by `call`, too.

const { SourceMapGenerator } = require('./source-map-generator.js');
const urls = require('./urls.js');

// By this the nodes of all versions of the package know each other.
const MARK = '$$$isSourceNode$$$';

function SourceNode(line, column, source, chunks, name) {
  this.children = [];
  this.sourceContents = {};
  this.line = line ?? null;
  this.column = column ?? null;
  this.source = source ?? null;
  this.name = name ?? null;
  this[MARK] = true;
  if (chunks != null) this.add(chunks);
}

const node = SourceNode.prototype;

/** Whether it is a node. Strings are told first, since a look for a property of theirs is slow. */
function isNode(chunk) {
  return typeof chunk !== 'string' && Boolean(chunk?.[MARK]);
}

/** Refuses what is neither a string nor a node. */
function checkChunk(chunk) {
  if (typeof chunk === 'string' || isNode(chunk)) return;
  throw new TypeError(`Expected a SourceNode, string, or an array of SourceNodes and strings. Got ${chunk}`);
}

node.add = function (chunk) {
  if (Array.isArray(chunk)) {
    for (const one of chunk) this.add(one);
    return this;
  }
  checkChunk(chunk);
  if (chunk !== '') this.children.push(chunk);
  return this;
};

node.prepend = function (chunk) {
  if (Array.isArray(chunk)) {
    for (const one of chunk.toReversed()) this.prepend(one);
    return this;
  }
  checkChunk(chunk);
  this.children.unshift(chunk);
  return this;
};

node.walk = function (visit) {
  for (const child of this.children) {
    if (isNode(child)) child.walk(visit);
    else if (child !== '') visit(child, { source: this.source, line: this.line, column: this.column, name: this.name });
  }
};

node.join = function (separator) {
  this.children = this.children.flatMap((child, i) => (i === 0 ? [child] : [separator, child]));
  return this;
};

node.replaceRight = function (pattern, replacement) {
  const last = this.children.at(-1);
  if (last === undefined) this.children.push(''.replace(pattern, replacement));
  else if (isNode(last)) last.replaceRight(pattern, replacement);
  else this.children[this.children.length - 1] = last.replace(pattern, replacement);
  return this;
};

node.setSourceContent = function (sourceFile, content) {
  // An assignment would lose a source that is called __proto__.
  Object.defineProperty(this.sourceContents, sourceFile, { value: content, writable: true, enumerable: true, configurable: true });
};

node.walkSourceContents = function (visit) {
  for (const child of this.children) {
    if (isNode(child)) child.walkSourceContents(visit);
  }
  for (const source of Object.keys(this.sourceContents)) visit(source, this.sourceContents[source]);
};

node.toString = function () {
  let code = '';
  this.walk((chunk) => (code += chunk));
  return code;
};

/** Writes the code of a tree, and adds its mappings to a generator. */
class Writer {
  code = '';
  #map;
  #line = 1;
  #column = 0;
  // What the code before is mapped to, as long as no mapping is needed to go on with it.
  #last = null;
  #isMapped = false;

  constructor(map) {
    this.#map = map;
  }

  write(chunk, original) {
    const { source, line, column } = original;
    if (source !== null && line !== null && column !== null) this.#begin(original);
    else this.#end();
    this.code += chunk;
    this.#walkLines(chunk, original);
  }

  /** The code that follows is mapped to an original position. */
  #begin(original) {
    if (!isSame(this.#last, original)) this.#add(original);
    this.#last = original;
    this.#isMapped = true;
  }

  /** The code that follows is mapped to nothing. */
  #end() {
    if (this.#isMapped) this.#map.addMapping({ generated: { line: this.#line, column: this.#column } });
    this.#forget();
  }

  #forget() {
    this.#last = null;
    this.#isMapped = false;
  }

  #add({ source, line, column, name }) {
    this.#map.addMapping({
      source,
      original: { line, column },
      generated: { line: this.#line, column: this.#column },
      name,
    });
  }

  /** Goes to the end of a chunk. A mapping ends with its line, so the lines after the first one have mappings of their own. */
  #walkLines(chunk, original) {
    let begin = 0;
    for (let end = chunk.indexOf('\n'); end >= 0; end = chunk.indexOf('\n', begin)) {
      begin = end + 1;
      this.#line++;
      this.#column = 0;
      if (begin === chunk.length) this.#forget();
      else if (this.#isMapped) this.#add(original);
    }
    this.#column += chunk.length - begin;
  }
}

function isSame(last, { source, line, column, name }) {
  return last !== null && last.source === source && last.line === line && last.column === column && last.name === name;
}

node.toStringWithSourceMap = function (options) {
  const map = new SourceMapGenerator(options);
  const writer = new Writer(map);
  this.walk((chunk, original) => writer.write(chunk, original));
  this.walkSourceContents((source, content) => map.setSourceContent(source, content));
  return { code: writer.code, map };
};

/** Reads a code line by line, and a line up to a column. A line has its end with it, which belongs to no column. */
class Reader {
  #pieces;
  #at = 0;
  line = 1;
  column = 0;

  constructor(code) {
    this.#pieces = code.split(/(\r?\n)/);
  }

  get isAtEnd() {
    return this.#at >= this.#pieces.length;
  }

  /** The rest of the line, with its end. */
  restOfLine() {
    const rest = `${this.#pieces[this.#at] ?? ''}${this.#pieces[this.#at + 1] ?? ''}`;
    this.#at += 2;
    this.line++;
    this.column = 0;
    return rest;
  }

  /** The line up to a column. */
  upTo(column) {
    const line = this.#pieces[this.#at] ?? '';
    const length = Math.max(0, column - this.column);
    if (!this.isAtEnd) this.#pieces[this.#at] = line.slice(length);
    this.column = column;
    return line.slice(0, length);
  }

  rest() {
    const rest = this.#pieces.slice(this.#at).join('');
    this.#at = this.#pieces.length;
    return rest;
  }
}

/** Cuts a code at its mappings, and adds the pieces to a node. */
class Cutter {
  #node;
  #reader;
  #pathOf;
  // The mapping whose code comes next; null before the first one.
  #last = null;

  constructor(into, code, pathOf) {
    this.#node = into;
    this.#reader = new Reader(code);
    this.#pathOf = pathOf;
  }

  /** Adds the code before a mapping. A mapping ends with its line. */
  cutAt(mapping) {
    const reader = this.#reader;
    if (this.#last !== null && reader.line === mapping.generatedLine) {
      this.#addMapped(reader.upTo(mapping.generatedColumn));
    } else {
      if (this.#last !== null) this.#addMapped(reader.restOfLine());
      while (reader.line < mapping.generatedLine) this.#node.add(reader.restOfLine());
      this.#node.add(reader.upTo(mapping.generatedColumn));
    }
    this.#last = mapping;
  }

  finish() {
    if (this.#reader.isAtEnd) return;
    if (this.#last !== null) this.#addMapped(this.#reader.restOfLine());
    this.#node.add(this.#reader.rest());
  }

  #addMapped(code) {
    const { source, originalLine, originalColumn, name } = this.#last;
    if (source === null) this.#node.add(code);
    else this.#node.add(new SourceNode(originalLine, originalColumn, this.#pathOf(source), code, name));
  }
}

SourceNode.fromStringWithSourceMap = function (code, consumer, relativePath) {
  const made = new SourceNode();
  const pathOf = (source) => (relativePath == null ? source : urls.join(relativePath, source));
  const cutter = new Cutter(made, code, pathOf);
  consumer.eachMapping((mapping) => cutter.cutAt(mapping));
  cutter.finish();
  for (const source of consumer.sources) {
    const content = consumer.sourceContentFor(source);
    if (content != null) made.setSourceContent(pathOf(source), content);
  }
  return made;
};

module.exports = { SourceNode };

'use strict';
// The API of convert-source-map, of versions 1 and 2: the comments of a code that name its map, and maps in them.

const { resolve } = require('node:path');
const { readFileSync } = require('node:fs');

// A comment with a map in it, which stands first on its line; and one that names a file, in either form.
const DATA = /^\s*\/[/*][@#]\s+sourceMappingURL=data:(?<type>(?:(?:application|text)\/json)?(?:;[^;,\s]*)*),(?<data>.*)$/gm;
const FILE = /\/(?:\/[@#][ \t]+sourceMappingURL=(?<line>[^\s'"`]+)|\*[@#][ \t]+sourceMappingURL=(?<block>[^*]+?)[ \t]*\*\/)[ \t]*$/gm;

const fresh = (pattern) => new RegExp(pattern.source, pattern.flags);
const last = (content, pattern) => content.match(fresh(pattern))?.at(-1);

/** A map, and its forms. */
class Converter {
  constructor(sourcemap) {
    this.sourcemap = sourcemap;
  }

  toJSON(space) {
    return JSON.stringify(this.sourcemap, null, space);
  }

  toBase64() {
    return Buffer.from(this.toJSON()).toString('base64');
  }

  toURI() {
    return `data:application/json;charset=utf-8,${encodeURIComponent(this.toJSON())}`;
  }

  /** The comment that has the map in it: by `encoding`, in base64 or percent-encoded. */
  toComment({ encoding = 'base64', multiline = false } = {}) {
    const url = encoding === 'uri' ? this.toURI() : `data:application/json;charset=utf-8;base64,${this.toBase64()}`;
    return comment(url, multiline);
  }

  toObject() {
    return JSON.parse(this.toJSON());
  }

  addProperty(key, value) {
    if (Object.hasOwn(this.sourcemap, key)) throw new Error(`property "${key}" already exists on the sourcemap, use set property instead`);
    return this.setProperty(key, value);
  }

  setProperty(key, value) {
    this.sourcemap[key] = value;
    return this;
  }

  getProperty(key) {
    return this.sourcemap[key];
  }
}

function comment(url, multiline) {
  return multiline ? `/*# sourceMappingURL=${url} */` : `//# sourceMappingURL=${url}`;
}

function fromObject(value) {
  return new Converter(value);
}

function fromJSON(json) {
  return new Converter(JSON.parse(json));
}

function fromBase64(base64) {
  return fromJSON(Buffer.from(base64, 'base64').toString());
}

function fromURI(uri) {
  return fromJSON(decodeURIComponent(uri));
}

/** Of the data in a comment of either form: without a word for base64 they are percent-encoded. */
function fromComment(text) {
  const { type, data } = fresh(DATA).exec(text.replace(/\s*\*\/\s*$/, '')).groups;
  return type.endsWith(';base64') ? fromBase64(data) : fromURI(data);
}

/** What a reader says of the file that a comment names: a function, or the folder that it is in. */
function fromMapFileComment(text, read) {
  const { line, block } = fresh(FILE).exec(text).groups;
  const name = line ?? block;
  if (typeof read !== 'function') return fromJSON(readFile(resolve(read, name)));
  const json = read(name);
  return typeof json?.then === 'function' ? json.then(fromJSON) : fromJSON(json);
}

function readFile(path) {
  try {
    return readFileSync(path, 'utf8');
  } catch (cause) {
    throw new Error(`An error occurred while trying to read the map file at ${path}\n${cause}`, { cause });
  }
}

/** Of the last comment of a code with a map in it; null if there is none. */
function fromSource(content) {
  const found = last(content, DATA);
  return found === undefined ? null : fromComment(found.trim());
}

/** The same for one that names a file. */
function fromMapFileSource(content, read) {
  const found = last(content, FILE);
  return found === undefined ? null : fromMapFileComment(found, read);
}

function removeComments(content) {
  return content.replace(fresh(DATA), '');
}

function removeMapFileComments(content) {
  return content.replace(fresh(FILE), '');
}

function generateMapFileComment(file, { multiline = false } = {}) {
  return comment(file, multiline);
}

module.exports = {
  get commentRegex() {
    return fresh(DATA);
  },
  get mapFileCommentRegex() {
    return fresh(FILE);
  },
  fromObject,
  fromJSON,
  fromURI,
  fromBase64,
  fromComment,
  fromMapFileComment,
  fromSource,
  fromMapFileSource,
  removeComments,
  removeMapFileComments,
  generateMapFileComment,
};

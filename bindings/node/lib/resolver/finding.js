'use strict';
// How a resolver finds the map of a code in its store.

const fs = require('node:fs');

const { SourceMapError, sourceMappingURL } = require('../index.js');
const { MapText, textOfDataURL } = require('./compiling.js');
const { Folder, RefusedError, TooLargeError, checkName, decoded, originOf, readWithin } = require('./stores.js');
const { Missing, MisuseError } = require('./tables.js');

const DEBUG_ID = /^[0-9a-f]{8}-?(?:[0-9a-f]{4}-?){3}[0-9a-f]{12}$/;

/** A debug id in the form in which two are compared. */
function debugIdOf(text) {
  const found = String(text).toLowerCase();
  if (!DEBUG_ID.test(found)) throw new RefusedError('a debug id that is no UUID');
  return found.replaceAll('-', '').replace(/^(.{8})(.{4})(.{4})(.{4})/, '$1-$2-$3-$4-');
}

/** Whether a map has another debug id than that which is asked for. */
function isOther(held, debugId) {
  if (debugId === null || !held.debugId) return false;
  try {
    return debugIdOf(held.debugId) !== debugId;
  } catch {
    return true;
  }
}

const outside = (url) => new Missing('outside', `${JSON.stringify(url)} is below no base`);

/** What finds maps. Its generators yield what the store answers, which may be promises. */
class Finder {
  #store;
  #bases;
  #compiler;
  #limits;
  #options;

  constructor(store, bases, compiler, limits, options) {
    this.#store = store;
    this.#bases = bases;
    this.#compiler = compiler;
    this.#limits = limits;
    this.#options = options;
  }

  /** The map of the code with this name (null if its URL is below no base), which a frame has by this URL. */
  *find(name, url, debugId) {
    let held;
    try {
      held = debugId === null ? null : yield* this.#open(this.#options.debugIdName.replace('{}', debugId));
      if (held === null && name === null) throw outside(url);
      held ??= yield* this.#byName(name, url);
    } catch (error) {
      if (error instanceof Missing || error instanceof MisuseError) throw error;
      if (error instanceof RefusedError) throw new Missing('refused', error.message);
      if (error instanceof TooLargeError) throw new Missing('too large', error.message);
      // (another time it may be there)
      throw new Missing('store', String(error), false);
    }
    if (isOther(held, debugId)) throw new Missing('other build', `${held.name} has the debug id ${held.debugId}`);
    return held;
  }

  *#byName(name, url) {
    const beside = `${name}.map`;
    if (this.#options.besideFirst) {
      const held = yield* this.#open(beside);
      if (held !== null) return held;
    }
    const code = yield* this.#bytes(name, this.#limits.codeBytes);
    const named = code === null ? null : yield* this.#byComment(name, url, code);
    const held = named ?? (yield* this.#open(beside));
    if (held !== null) return held;
    if (code === null) throw new Missing('not there', `there is no ${name}, and no ${beside}`);
    throw new Missing('no map', `${name} names no map that is there, and there is no ${beside}`);
  }

  /** The map that the last comment of a code names; null if it names none that is there. */
  *#byComment(name, url, code) {
    let named;
    try {
      named = sourceMappingURL(code);
    } catch (error) {
      // (a code that is no text)
      if (error instanceof SourceMapError) return null;
      throw error;
    }
    if (named === null) return null;
    const text = textOfDataURL(named);
    if (text === null) {
      const found = this.#named(name, url, named);
      return found === null ? null : yield* this.#open(found);
    }
    if (text.length > this.#limits.mapBytes) throw new TooLargeError(`the map in ${name}`, text.length, this.#limits.mapBytes);
    return this.#compiled(new MapText(name, () => text));
  }

  /** The name of the map that a code names by a URL: beside the code, or, of a URL that has an origin or begins with a slash, below the
   *  bases. Null if there it is below none. */
  #named(name, url, named) {
    if (/^[a-zA-Z][a-zA-Z0-9+.-]*:/.test(named)) return this.#bases.nameOf(named);
    const [path] = named.split(/[?#]/, 1);
    if (path.startsWith('//')) return this.#bases.nameOf(`${url.slice(0, url.indexOf('//'))}${path}`);
    if (path.startsWith('/')) return this.#bases.nameOf(`${originOf(url)}${path}`);
    const folders = name.split('/').slice(0, -1);
    for (const part of decoded(path).split('/')) {
      if (part === '..' && folders.length === 0) throw new RefusedError(`${name} names a map out of the store`);
      if (part === '..') folders.pop();
      else if (part !== '' && part !== '.') folders.push(part);
    }
    return folders.length > 0 ? checkName(folders.join('/')) : null;
  }

  *#bytes(name, limit) {
    if (this.#store instanceof Folder) return this.#store.get(name, limit);
    const answer = yield this.#store.get(name);
    if (answer === null || answer === undefined) return null;
    if (!(answer instanceof Uint8Array)) throw new MisuseError(`the store has no Uint8Array for ${name}`);
    if (answer.length > limit) throw new TooLargeError(name, answer.length, limit);
    return answer;
  }

  /** The map with this name; null if there is none. */
  *#open(name) {
    if (!(this.#store instanceof Folder)) {
      const data = yield* this.#bytes(name, this.#limits.mapBytes);
      return data === null ? null : this.#compiled(new MapText(name, () => data));
    }
    const opened = this.#store.open(name);
    if (opened === null) return null;
    try {
      return this.#ofFile(name, opened);
    } finally {
      fs.closeSync(opened.file);
    }
  }

  #compiled(text) {
    return this.#compiler.fresh(text) ?? this.#compiler.made(text);
  }

  /** The map in a file. */
  #ofFile(name, opened) {
    const { file, status } = opened;
    const limit = this.#limits.mapBytes;
    if (status.size > limit) throw new TooLargeError(name, Number(status.size), limit);
    const read = () => {
      const data = readWithin(opened, name, limit);
      const after = fs.fstatSync(file, { bigint: true });
      // (it is written meanwhile: what was read is compiled for now alone)
      if (after.size !== BigInt(data.length) || after.mtimeNs !== status.mtimeNs) text.status = null;
      return data;
    };
    const text = new MapText(name, read, status);
    return this.#compiled(text);
  }
}

module.exports = { Finder, debugIdOf, outside };

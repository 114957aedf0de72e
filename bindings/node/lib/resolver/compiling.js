'use strict';
// The compiled maps of a resolver: which are taken, and how they are made.

const fs = require('node:fs');
const { join } = require('node:path');
const { createHash } = require('node:crypto');

const { CompiledMap, SourceMap, SourceMapError, decodeDataURL } = require('../index.js');
const { Missing } = require('./tables.js');
const { Folder, RefusedError, replaceFile } = require('./stores.js');

const ENDING = '.smc';
/** Files that were written last by less than this before they were read may be written again in the same tick of the clock. */
const RECENT = 2_000_000_000n;
/** Times of files are set as a double of seconds, which is one or two microseconds off. */
const OFF = 4000n;
/** What a map takes beside its bytes. */
const ASIDE = 4096;

const sha256 = (data) => createHash('sha256').update(data).digest();

/** A source with the source root before it, as the library puts it there. */
function rooted(sourceRoot, source) {
  const map = new SourceMap({ version: 3, sourceRoot, sources: [source], names: [], mappings: '' });
  try {
    map.applySourceRoot();
    return map.sources[0];
  } finally {
    map.free();
  }
}

/** A map that is ready for lookups, its name in the store, and of how many bytes it is. */
class Held {
  #root;
  #sources = new Map();

  constructor(name, bytes) {
    this.name = name;
    this.map = new CompiledMap(bytes);
    this.size = bytes.length + ASIDE;
    this.debugId = this.map.debugId;
    this.#root = this.map.sourceRoot;
  }

  /** A source as the map lists it, with the source root before it. */
  source(listed) {
    if (!this.#root) return listed;
    let found = this.#sources.get(listed);
    if (found === undefined) {
      found = rooted(this.#root, listed);
      this.#sources.set(listed, found);
    }
    return found;
  }
}

/** The text of a map that a store has: its name, what the system says of its file (null if it is not one, or changes), and its bytes,
 *  which are read when they are first asked for. */
class MapText {
  #read;
  #data = null;

  constructor(name, read, status = null) {
    this.name = name;
    this.status = status;
    this.#read = read;
  }

  get data() {
    this.#data ??= this.#read();
    return this.#data;
  }
}

/** The time of the file of a compiled map, in seconds: that of its map, or, if this may yet change within a tick of the clock, an earlier
 *  one, by which the compiled map counts as older, so that its hash is compared. */
function timeFor({ mtimeNs }) {
  const isRecent = BigInt(Date.now()) * 1_000_000n - mtimeNs < RECENT;
  return Number(mtimeNs / 1000n + 2n) / 1e6 - (isRecent ? 1 : 0);
}

/** What opens compiled maps beside those of a store and in a cache folder, and makes those that lack. */
class Compiler {
  #folder;
  #cache;
  #writesBeside;
  #alwaysHashes;
  #counts;

  constructor(store, { cache, writesBeside, alwaysHashes }, counts) {
    this.#folder = store instanceof Folder ? store : null;
    this.#cache = cache;
    this.#writesBeside = writesBeside;
    this.#alwaysHashes = alwaysHashes;
    this.#counts = counts;
  }

  // ---- which are taken ----

  /** The file of a map in the cache folder: by a hash, so that any name is one, and stores may share the folder. */
  #cachePath(name) {
    if (this.#cache === null) return null;
    return join(this.#cache, sha256(`${this.#folder?.path ?? ''}\0${name}`).toString('hex').slice(0, 40) + ENDING);
  }

  /** The file beside a map; null if there is none, or a link leads out of the folder. */
  #besidePath(name) {
    try {
      return this.#folder?.pathOf(name + ENDING) ?? null;
    } catch (error) {
      if (error instanceof RefusedError || error.code !== undefined) return null;
      throw error;
    }
  }

  /** The compiled map of a map, if one was made of it: by its length and the time of its file, or by its bytes and their SHA-256. */
  fresh(text) {
    const candidates = [
      // (the time of an own one is that of its map; of others any later one, as `sourcemap compile` leaves it)
      { path: this.#cachePath(text.name), isOwn: true, isExact: true },
      { path: this.#besidePath(text.name), isOwn: this.#writesBeside, isExact: false },
    ];
    for (const it of candidates) {
      const opened = it.path === null ? null : this.#opened(it.path, text.name);
      if (opened === null) continue;
      if (this.#isFresh(opened, it, text)) {
        this.#counts.add('compiledUsed');
        return opened.held;
      }
      this.#counts.add('compiledStale');
    }
    return null;
  }

  #opened(path, name) {
    let file;
    try {
      file = fs.openSync(path, fs.constants.O_RDONLY | (fs.constants.O_NONBLOCK ?? 0));
      const status = fs.fstatSync(file, { bigint: true });
      return { held: new Held(name, fs.readFileSync(file)), status };
    } catch (error) {
      if (!(error instanceof SourceMapError) && error.code === undefined) throw error;
      if (error.code !== 'ENOENT') this.#counts.add('compiledDamaged');
      return null;
    } finally {
      if (file !== undefined) fs.closeSync(file);
    }
  }

  #isFresh({ held: { map }, status: own }, { path, isOwn, isExact }, text) {
    const { status } = text;
    if (status !== null && BigInt(map.textLength) !== status.size) return false;
    if (status !== null && !this.#alwaysHashes) {
      const later = own.mtimeNs - status.mtimeNs;
      if (later >= 0n && (!isExact || later <= OFF)) return true;
    }
    const isOfText = map.textLength === text.data.length && sha256(text.data).equals(map.stamp);
    if (isOfText && isOwn && text.status !== null) touch(path, text.status);
    return isOfText;
  }

  // ---- how they are made ----

  made(text) {
    const bytes = compiled(text);
    this.#counts.add('compiledMade');
    this.#write(text, bytes);
    return new Held(text.name, bytes);
  }

  #write({ name, status }, bytes) {
    try {
      const beside = this.#writesBeside && status !== null ? this.#folder.placeOf(name + ENDING) : null;
      const path = this.#cachePath(name) ?? beside;
      if (path === null) return;
      replaceFile(path, bytes, status === null ? 0o600 : Number(status.mode), status === null ? Date.now() / 1000 : timeFor(status));
    } catch (error) {
      if (error.code === undefined && !(error instanceof RefusedError)) throw error;
      this.#counts.add('compiledUnwritten');
    }
  }
}

/** Gives a compiled map the time of its map, so that no hash is needed next time. */
function touch(path, status) {
  try {
    fs.utimesSync(path, timeFor(status), timeFor(status));
  } catch {
    // (it may be another one's)
  }
}

/** The bytes of the compiled map of a text. Throws Missing if it is no map. */
function compiled({ name, data }) {
  try {
    const { map } = SourceMap.found(data);
    try {
      return map.compile({ textLength: data.length, stamp: sha256(data) });
    } finally {
      map.free();
    }
  } catch (error) {
    if (!(error instanceof SourceMapError) || error.code === 'SMAP_OUT_OF_MEMORY') throw error;
    throw new Missing('bad map', `${name}: ${error.message}`);
  }
}

/** The text of a map in a data URL; null if it is another URL. Throws Missing of one that is damaged. */
function textOfDataURL(url) {
  try {
    const text = decodeDataURL(url);
    return text === null ? null : Buffer.from(text);
  } catch (error) {
    if (!(error instanceof SourceMapError)) throw error;
    throw new Missing('bad map', error.message);
  }
}

module.exports = { Compiler, MapText, textOfDataURL };

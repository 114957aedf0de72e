'use strict';
// Stack traces in original positions, as node --enable-source-maps gives them: for `register`, and in the place of source-map-support,
// whose users may say how files and maps are found.

const { readFileSync } = require('node:fs');
const { dirname, isAbsolute, resolve } = require('node:path');
const { fileURLToPath, pathToFileURL } = require('node:url');

const { SourceMap, sourceMappingURL, decodeDataURL } = require('../lib/index.js');

const DRIVE = /^[A-Za-z]:[\\/]/;

// ---- maps of files ----

/** How files and maps are found. Each reader of texts is asked before the file system, and each of maps before the comments in files; they
 *  answer null where they have nothing. Those of texts and maps may be all that is asked. */
const readers = { texts: [], maps: [], readsFiles: true, readsComments: true, keepsContents: false };

/** What the first reader has that has anything; else null. */
function firstOf(list, asked) {
  for (const read of list) {
    const found = read(asked);
    if (found) return found;
  }
  return null;
}

/** The code of a file, as bytes. */
function codeOf(file) {
  const text = firstOf(readers.texts, file);
  if (text === null && !readers.readsFiles) throw new Error(`No reader has ${file}`);
  return text === null ? readFileSync(file) : Buffer.from(text);
}

/** What was found for files, the one that was not asked for longest first; it is dropped first. */
class Cache {
  static #MAX_BYTES = 256 * 1024 * 1024;
  static #MAX_FILES = 2000;
  #found = new Map();
  #bytes = 0;

  /** The map of a file; null if it has none, or one that can not be read. */
  mapOf(file) {
    const known = this.#found.get(file);
    const entry = known ?? { map: readMap(file) };
    if (known === undefined) this.#bytes += entry.map?.bytes ?? 0;
    this.#found.delete(file);
    this.#found.set(file, entry);
    this.#shrink(file);
    return entry.map;
  }

  #shrink(kept) {
    for (const file of this.#found.keys()) {
      if (this.#bytes <= Cache.#MAX_BYTES && this.#found.size <= Cache.#MAX_FILES) return;
      if (file !== kept) this.#drop(file);
    }
  }

  #drop(file) {
    const { map } = this.#found.get(file);
    this.#bytes -= map?.bytes ?? 0;
    map?.free();
    this.#found.delete(file);
  }

  /** The maps that are kept. */
  maps() {
    return [...this.#found.values()].flatMap(({ map }) => map ?? []);
  }

  clear() {
    for (const file of [...this.#found.keys()]) this.#drop(file);
  }
}

/** A map, and where its sources are. */
class FileMap {
  bytes;
  #map;
  #base;
  #root;
  #paths = [];

  /** Of the text or the value of a map, and the URL that its sources are found from, if there is one. */
  constructor(given, base) {
    this.#map = SourceMap.found(given).map;
    if (!readers.keepsContents) this.#map.setSourcesContent([]);
    this.#base = base;
    const root = this.#map.sourceRoot ?? '';
    this.#root = root === '' || root.endsWith('/') ? root : `${root}/`;
    this.bytes = this.#map.counts.bytes;
  }

  free() {
    this.#map.free();
  }

  /** The original position of a generated one; null if it has none. Lines and columns count from 1. */
  positionFor(line, column) {
    const token = this.#map.traceToken(line - 1, column - 1);
    if (token === null || token.sourceId === null) return null;
    const file = this.#pathOf(token.sourceId);
    const name = token.nameId === null ? null : this.#map.getName(token.nameId);
    return file === null ? null : { file, line: token.originalLine + 1, column: token.originalColumn + 1, name };
  }

  /** The content that the map has of a file; null if it has none. */
  contentOf(file) {
    const id = this.#map.sources.findIndex((_, at) => this.#pathOf(at) === file);
    return id < 0 ? null : this.#map.getSourceContent(id);
  }

  #pathOf(id) {
    this.#paths[id] ??= { path: resolvePath(this.#root, this.#map.getSource(id), this.#base) };
    return this.#paths[id].path;
  }
}

/** Where a source is: the path of a file, or else a URL. A source without a name is nowhere. */
function resolvePath(root, source, base) {
  if (!source) return null;
  const text = DRIVE.test(source) ? source : root + source;
  if (DRIVE.test(text) || base === null) return text;
  try {
    const url = new URL(text, base);
    return url.protocol === 'file:' ? fileURLToPath(url) : url.href;
  } catch {
    return resolve(dirname(fileURLToPath(base)), text); // it is a path that is no URL, as one with a percent sign
  }
}

function attempt(call) {
  try {
    return call();
  } catch {
    return null;
  }
}

/** The URL that a code names for its map; null if it names none. Mostly its last lines say it, and no other one has to be read. */
function urlOf(code) {
  const at = code.lastIndexOf('sourceMappingURL=');
  if (at < 0) return null;
  const lines = code.subarray(code.lastIndexOf('\n', at) + 1);
  return sourceMappingURL(lines) ?? sourceMappingURL(code);
}

/** The text of the map that a code names in its last comment of that kind, and its URL; null if it names none. */
function namedMap(code, file) {
  const url = urlOf(code);
  if (url === null) return null;
  const base = pathToFileURL(file);
  const data = url.startsWith('data:') ? decodeDataURL(url) : null;
  if (data !== null) return { map: data, url: base };
  const place = new URL(url, base);
  return { map: place.protocol === 'file:' ? codeOf(fileURLToPath(place)) : readFileSync(place), url: place }; // of another URL this throws
}

function readNamedMap(code, file) {
  const named = namedMap(code, file);
  return named === null ? null : new FileMap(named.map, named.url);
}

/** The URL that a reader of maps says; a path is that of a file. */
function baseOf(url) {
  if (!url) return null;
  return attempt(() => (isAbsolute(url) ? pathToFileURL(url) : new URL(url)));
}

/** The map of a script: that which a reader has, the one that its file names, or the one beside it. */
function readMap(script) {
  const given = firstOf(readers.maps, script);
  if (given !== null) return attempt(() => new FileMap(given.map, baseOf(given.url)));
  const file = fileOf(script);
  const code = file === null || !readers.readsComments ? null : attempt(() => codeOf(file));
  if (code === null) return null;
  const beside = `${file}.map`;
  return attempt(() => readNamedMap(code, file)) ?? attempt(() => new FileMap(codeOf(beside), pathToFileURL(beside)));
}

// ---- frames ----

const cache = new Cache();

/** The file that a script is from; null if it is from none. */
function fileOf(script) {
  if (typeof script !== 'string') return null;
  if (script.startsWith('file:')) return fileURLToPath(script);
  return isAbsolute(script) ? script : null;
}

/** What is found for a script, the text of a map or its value, and where it is from; null if there is nothing. */
function foundFor(script) {
  const given = firstOf(readers.maps, script);
  const file = given === null && readers.readsComments ? fileOf(script) : null;
  if (file === null) return given;
  const named = attempt(() => namedMap(codeOf(file), file));
  return named && { map: named.map.toString(), url: fileURLToPath(named.url) };
}

/** Whether there may be a map of a script. */
function isMapped(script) {
  return typeof script === 'string' && (readers.maps.length > 0 || fileOf(script) !== null);
}

function positionFor(script, line, column) {
  return isMapped(script) ? (cache.mapOf(script)?.positionFor(line, column) ?? null) : null;
}

function placeText({ file, line, column }) {
  return `${file}:${line}:${column}`;
}

/** Where a code was evaluated, as `eval at f (/a.js:1:2)`, or inside of such a place, as `eval at g (eval at f (/a.js:1:2))`. */
const ORIGIN = /^((?:eval at .*? \()+)(.*?):(\d+):(\d+)(\).*)$/s;

function originText(origin) {
  const [, head, script, line, column, tail] = ORIGIN.exec(origin) ?? [];
  const position = head === undefined ? null : positionFor(script, Number(line), Number(column));
  return position === null ? origin : head + placeText(position) + tail;
}

/** The text of a frame with one part, the last of its kind, replaced. */
function replaceLast(text, part, replacement) {
  const at = text.lastIndexOf(part);
  return at < 0 ? text : text.slice(0, at) + replacement + text.slice(at + part.length);
}

/** What a map says of a frame: a part of its text and what stands in its place, and the answers that go with it. */
function evalChange(frame) {
  const origin = frame.getEvalOrigin();
  const mapped = originText(origin);
  return mapped === origin ? null : { part: origin, replacement: mapped, answers: { getEvalOrigin: () => mapped } };
}

function positionChange(frame) {
  const line = frame.getLineNumber();
  const column = frame.getColumnNumber();
  const position = positionFor(frame.getFileName(), line, column);
  if (position === null) return null;
  const answers = {
    getFileName: () => position.file,
    getScriptNameOrSourceURL: () => position.file,
    getLineNumber: () => position.line,
    getColumnNumber: () => position.column,
  };
  return { part: placeText({ file: frame.getScriptNameOrSourceURL(), line, column }), replacement: placeText(position), answers };
}

/** The same; null if no map says anything of it. */
function changeOf(frame) {
  return attempt(() => (frame.isEval() ? evalChange(frame) : positionChange(frame)));
}

/** A frame as the engine writes it, with the original position. */
function frameText(frame, change = changeOf(frame)) {
  const text = String(frame);
  return change === null ? text : replaceLast(text, change.part, change.replacement);
}

/** A frame that answers with its original position, for a function that writes stack traces in its own way. */
function mappedFrame(frame) {
  const change = changeOf(frame);
  if (change === null) return frame;
  const answers = { ...change.answers, toString: () => frameText(frame, change) };
  const get = (_, key) => {
    if (Object.hasOwn(answers, key)) return answers[key];
    const value = frame[key];
    return typeof value === 'function' ? value.bind(frame) : value;
  };
  return new Proxy(frame, { get });
}

// ---- stack traces ----

/** Errors of Node's own classes have their code in the first line. */
function isOfNode(error) {
  for (let it = error; it !== null; it = Object.getPrototypeOf(it)) {
    if (Object.getOwnPropertySymbols(it).some((symbol) => symbol.description === 'kIsNodeError')) return true;
  }
  return false;
}

function headText(error) {
  return isOfNode(error) ? `${error.name} [${error.code}]: ${error.message}` : Error.prototype.toString.call(error);
}

let isInstalled = false;
// The function that was there before.
let previous;

function prepareStackTrace(error, frames) {
  if (typeof previous === 'function') return previous(error, isInstalled ? frames.map(mappedFrame) : frames);
  const textOf = (frame) => (isInstalled ? frameText(frame) : String(frame));
  const head = attempt(() => headText(error)) ?? '<error>';
  return [head, ...frames.map(textOf)].join('\n    at ');
}

/** Installs the hook, if it is not there. A function that is there already is kept, and called with mapped frames. */
function install() {
  isInstalled = true;
  if (Error.prepareStackTrace === prepareStackTrace) return;
  previous = Error.prepareStackTrace;
  Error.prepareStackTrace = prepareStackTrace;
}

/** Takes the hook away. Where another function took its place, and calls it, it tells positions as they are. */
function uninstall() {
  isInstalled = false;
  if (Error.prepareStackTrace === prepareStackTrace) Error.prepareStackTrace = previous;
  cache.clear();
}

module.exports = { readers, cache, foundFor, positionFor, mappedFrame, install, uninstall };

'use strict';
// The API of source-map-support 0.5, over the hook of `register`.

const { readFileSync } = require('node:fs');
const Module = require('node:module');
const { isMainThread } = require('node:worker_threads');

const stack = require('./stack-traces.js');

const { readers, cache } = stack;
const FIRST_FRAME = /\n {4}at [^(]+ \((.*):(\d+):(\d+)\)/;

// The code of modules as Node compiles it, where that is asked for.
const compiled = new Map();
let hooksRequire = false;
let hooksEmit = false;

const compiledText = (file) => compiled.get(file) ?? null;

/** Adds a reader, which is asked before those that are there, or in their place. */
function add(list, reader, overrides) {
  if (overrides) list.length = 0;
  list.unshift(reader);
  cache.clear();
}

/** Keeps the code of each module that is compiled, which may be another than that of its file. */
function hookRequire() {
  if (hooksRequire) return;
  hooksRequire = true;
  const compile = Module.prototype._compile;
  Module.prototype._compile = function (content, filename, ...rest) {
    compiled.set(filename, content);
    cache.clear();
    return compile.call(this, content, filename, ...rest);
  };
  readers.texts.push(compiledText);
}

/** Shows the line of the source of an error that nobody catches, and ends the process. */
function hookEmit() {
  if (hooksEmit || !isMainThread) return;
  hooksEmit = true;
  const { emit } = process;
  process.emit = function (type, error, ...rest) {
    if (type !== 'uncaughtException' || !error?.stack || this.listenerCount(type) > 0) return emit.call(this, type, error, ...rest);
    const source = getErrorSource(error);
    console.error(source === null ? error.stack : `\n${source}\n${error.stack}`);
    return process.exit(1);
  };
}

function install(options = {}) {
  const { environment = 'auto', handleUncaughtExceptions = true } = options;
  if (!['auto', 'browser', 'node'].includes(environment)) {
    throw new Error(`environment ${environment} was unknown. Available options are {auto, browser, node}`);
  }
  const { retrieveFile, overrideRetrieveFile, retrieveSourceMap: ofMaps, overrideRetrieveSourceMap } = options;
  if (retrieveFile) add(readers.texts, retrieveFile, overrideRetrieveFile);
  if (retrieveFile && overrideRetrieveFile) readers.readsFiles = false;
  if (ofMaps) add(readers.maps, ofMaps, overrideRetrieveSourceMap);
  if (ofMaps && overrideRetrieveSourceMap) readers.readsComments = false;
  if (options.hookRequire) hookRequire();
  readers.keepsContents = true;
  stack.install();
  if (handleUncaughtExceptions) hookEmit();
}

function resetRetrieveHandlers() {
  readers.texts = hooksRequire ? [compiledText] : [];
  readers.maps = [];
  readers.readsFiles = readers.readsComments = true;
  cache.clear();
}

/** The original position of one that counts columns from 0; the position itself if there is none. */
function mapSourcePosition(position) {
  const { source, line, column } = position;
  const found = stack.positionFor(source, line, column + 1);
  return found === null ? position : { source: found.file, line: found.line, column: found.column - 1, name: found.name };
}

/** The content of a source: of a map that is kept, or of its file. */
function contentOf(source) {
  for (const map of cache.maps()) {
    const content = map.contentOf(source);
    if (content) return content;
  }
  try {
    return readFileSync(source, 'utf8');
  } catch {
    return '';
  }
}

/** The line of the source that the first frame of an error is on, and below it where; null if it is not known. */
function getErrorSource(error) {
  const [, source, line, column] = FIRST_FRAME.exec(error.stack) ?? [];
  const code = source === undefined ? undefined : contentOf(source).split(/\r\n|\r|\n/)[line - 1];
  return code ? `${source}:${line}\n${code}\n${' '.repeat(column - 1)}^` : null;
}

module.exports = {
  install,
  resetRetrieveHandlers,
  wrapCallSite: stack.mappedFrame,
  getErrorSource,
  mapSourcePosition,
  retrieveSourceMap: stack.foundFor,
};

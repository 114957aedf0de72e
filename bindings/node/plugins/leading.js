'use strict';
// What the plugins for bundlers do: the map of a bundle resolves to its modules, some of which were made from other files and have maps
// themselves; traced through these it resolves to the files that people wrote.

const { readFileSync } = require('node:fs');
const { dirname, relative, resolve } = require('node:path');
const { fileURLToPath, pathToFileURL } = require('node:url');

const { SourceMap, sourceMappingURL, decodeDataURL } = require('../lib/index.js');

/** What a file has; null if it cannot be read. */
function textOf(place) {
  try {
    return readFileSync(place);
  } catch {
    return null;
  }
}

/** The text of the map that the last comment of a module names, or of the one beside it, and the file that its sources are found from; null
 *  if there is none. */
function foundMap(file) {
  const code = textOf(file);
  const url = code === null ? null : sourceMappingURL(code);
  const data = url?.startsWith('data:') ? decodeDataURL(url) : null;
  if (data !== null) return { text: data, from: file };
  const named = url === null ? null : new URL(url, pathToFileURL(file));
  for (const from of [named?.protocol === 'file:' ? fileURLToPath(named) : null, `${file}.map`]) {
    const text = from === null ? null : textOf(from);
    if (text !== null) return { text, from };
  }
  return null;
}

/** A path as maps have it. */
const slashed = (path) => path.replaceAll('\\', '/');

/** The map of a module, whose sources are relative to a folder; null if it has none. */
function moduleMap(file, folder, mapOf) {
  const given = mapOf?.(file);
  const found = given ? { text: given, from: file } : foundMap(file);
  if (found === null) return null;
  const { map } = SourceMap.found(found.text);
  map.applySourceRoot();
  const isURL = (source) => /^[a-z][a-z\d+.-]+:/i.test(source);
  map.setSources(map.sources.map((it) => (isURL(it) ? it : slashed(relative(folder, resolve(dirname(found.from), it))))));
  return map;
}

/**
 * The map of a bundle, traced through the maps of its modules; null if none has any. `fileOf` returns which file a source of the bundle is,
 * or null. `folder` is where the map is, which its sources are relative to.
 */
function ledBack(given, folder, { mapOf, fileOf = (source) => resolve(folder, source) } = {}) {
  const bundle = SourceMap.found(given, { keepUnknown: true }).map;
  bundle.applySourceRoot();
  const inputs = new Map();
  for (const source of bundle.sources) {
    const file = fileOf(source);
    const map = file === null ? null : moduleMap(file, folder, mapOf);
    if (map !== null) inputs.set(source, map);
  }
  if (inputs.size === 0) return null;
  const led = bundle.remap(inputs);
  for (const it of [bundle, ...inputs.values()]) it.free();
  return led;
}

module.exports = { ledBack };

'use strict';
// What maps are read from: a text, a value that stands for one, or a URL that has one.

const native = require('./native.js');
const { madeOrNull } = require('./errors.js');
const { text } = require('./arguments.js');
const { isDecoded, readDecoded, toText } = require('./decoded.js');

/** The file system of Node, where there is one. Bundlers look for no module of this name. */
function fileSystem() {
  const { getBuiltinModule } = typeof process === 'object' ? process : {};
  if (getBuiltinModule === undefined) throw new TypeError('Files are read in Node of 20.16 and later alone');
  return getBuiltinModule('node:fs');
}

function textOfURL(url) {
  if (url.protocol === 'file:') return fileSystem().readFileSync(url);
  const found = url.protocol === 'data:' ? madeOrNull(native.decodeDataURL(text(url.href, 'The URL'))) : null;
  if (found === null) throw new TypeError(`The URL is of neither a file nor JSON data: ${url.href.slice(0, 99)}`);
  return found;
}

/** The mappings text of decoded mappings; all else as it is. */
function encodedMappings(mappings) {
  if (Array.isArray(mappings) && mappings.length === 0) return '';
  return isDecoded(mappings) ? toText(readDecoded(mappings), mappings.length) : mappings;
}

/** The value of a map, and those of its sections, with mappings that are no text encoded. */
function encodedValue(value) {
  if (value === null || typeof value !== 'object') return value;
  if (Array.isArray(value.sections)) {
    return { ...value, sections: value.sections.map((section) => ({ ...section, map: encodedValue(section?.map) })) };
  }
  return Array.isArray(value.mappings) ? { ...value, mappings: encodedMappings(value.mappings) } : value;
}

/** Whether an object is the value of a map, or has one. */
function isValue(it) {
  return it !== null && typeof it === 'object' && ('mappings' in it || 'sections' in it || typeof it.toJSON === 'function');
}

function isURL(it) {
  return typeof URL === 'function' && it instanceof URL;
}

/** The value that a map is read from, as it is; null if it is read from a text. */
function sourceValue(it) {
  if (!isValue(it) || ArrayBuffer.isView(it) || isURL(it)) return null;
  return 'mappings' in it || 'sections' in it ? it : (it.toJSON() ?? null);
}

/** The text of what a map is read from. */
function sourceText(it, what) {
  if (typeof it === 'string' || ArrayBuffer.isView(it)) return text(it, what);
  if (!isValue(it)) throw new TypeError(`${what} is neither a string, a Uint8Array, a URL nor a value with mappings or sections`);
  if (isURL(it)) return textOfURL(it);
  const json = JSON.stringify('mappings' in it || 'sections' in it ? encodedValue(it) : it);
  return text(json, what);
}

module.exports = { fileSystem, sourceText, sourceValue, encodedMappings };

'use strict';
// Arguments of the types in native.d.ts. Those of another type throw.

const { COMPILED, MAP, SCOPES, Handle } = require('./handles.js');
const { NOT_TOLD } = require('./layout.js');

const tagOf = Object.getOwnPropertyDescriptor(Object.getPrototypeOf(Uint8Array.prototype), Symbol.toStringTag).get;

function handleOf(it, kind) {
  if (Handle.kindOf(it) !== kind) throw new TypeError('The handle is of another kind');
  return it;
}

function mapOf(it) {
  return handleOf(it, MAP);
}

function compiledOf(it) {
  return handleOf(it, COMPILED);
}

function scopesOf(it) {
  return handleOf(it, SCOPES);
}

function isCompiled(it) {
  return Handle.kindOf(it) === COMPILED;
}

/** A map or a compiled one. */
function askedOf(it) {
  return isCompiled(it) ? it : mapOf(it);
}

function word(it) {
  if (typeof it !== 'number') throw new TypeError('The argument is no number');
  return it >>> 0;
}

// An array whose buffer was detached has no entries, but is not copied from or to.
const NO_BYTES = new Uint8Array(0);
const NO_WORDS = new Uint32Array(0);

function bytesOf(it) {
  if (tagOf.call(it) !== 'Uint8Array') throw new TypeError('The text is neither a string nor a Uint8Array');
  return it.length === 0 ? NO_BYTES : it;
}

function textOf(it) {
  return typeof it === 'string' ? it : bytesOf(it);
}

function wordsOf(it) {
  if (tagOf.call(it) !== 'Uint32Array') throw new TypeError('The argument is no Uint32Array');
  return it.length === 0 ? NO_WORDS : it;
}

/** A list of texts: the bytes of all, and the length of each. */
function textsOf(bytes, lengths) {
  const all = wordsOf(lengths).slice();
  const used = all.reduce((sum, len) => (len === NOT_TOLD ? sum : sum + len), 0);
  if (used > bytesOf(bytes).length) throw new TypeError('The lengths are above the bytes');
  return { bytes, lengths: all };
}

/** The elements are read before anything is looked at: reading them may run what frees a map. */
function mapsOf(list) {
  if (!Array.isArray(list)) throw new TypeError('The maps are no array');
  const all = Array.from({ length: list.length }, (_, i) => list[i]);
  return all.map(mapOf);
}

module.exports = { handleOf, mapOf, compiledOf, scopesOf, isCompiled, askedOf, word, bytesOf, textOf, wordsOf, textsOf, mapsOf };

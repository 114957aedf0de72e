'use strict';
// Arguments as the calls of native.d.ts take them. What does not fit throws before anything is called.

const { NO_ID } = require('./constants.js');

// A typed array of another realm is one too, and a proxy of one is none.
const tagOf = Object.getOwnPropertyDescriptor(Object.getPrototypeOf(Uint8Array.prototype), Symbol.toStringTag).get;
const isBytes = (it) => tagOf.call(it) === 'Uint8Array';
const isWords = (it) => tagOf.call(it) === 'Uint32Array';

// Some browsers have no shared memory.
const byteLengths = [ArrayBuffer, globalThis.SharedArrayBuffer]
  .filter((it) => it !== undefined)
  .map((it) => Object.getOwnPropertyDescriptor(it.prototype, 'byteLength').get);

const encoder = new TextEncoder();

/** A text, as it is. */
function text(it, what) {
  if (typeof it === 'string') {
    if (!it.isWellFormed()) throw new TypeError(`${what} has half a surrogate pair`);
    return it;
  }
  if (!isBytes(it)) throw new TypeError(`${what} is neither a string nor a Uint8Array`);
  return it;
}

/** A value as an error tells it. */
function shown(it) {
  if (typeof it === 'string') return JSON.stringify(it);
  if (typeof it === 'bigint') return `${it}n`;
  const hasText = it === null || (typeof it !== 'object' && typeof it !== 'function');
  return hasText ? String(it) : `of the type ${typeof it}`;
}

/** Why a value is refused in place of an unsigned number of 32 bits, or of a line that is counted from 1: it is told as it was given. */
function noWord(given, what, from = 0) {
  return `${what} is ${shown(given)}, and not an integer from ${from} to ${NO_ID + from}`;
}

/** An unsigned number of 32 bits. */
function word(it, what) {
  if (typeof it !== 'number') throw new TypeError(noWord(it, what));
  if (it >>> 0 !== it) throw new RangeError(noWord(it, what));
  return it;
}

/** A number that a list of constants has, by the name of the list; which these are the library knows. */
function option(it, what, constants) {
  const refused = `${what} is ${shown(it)}, and no number of ${constants}`;
  if (typeof it !== 'number') throw new TypeError(refused);
  if (it >>> 0 !== it) throw new RangeError(refused);
  return it;
}

/** Options, none of which has a name beside these: one that is mistyped would be passed over. */
function optionsOf(it, names, what) {
  if (it === undefined) return {};
  if (it === null || typeof it !== 'object') throw new TypeError(`The options of ${what} are ${shown(it)}, and not an object`);
  const unknown = Object.keys(it).find((name) => !names.includes(name));
  if (unknown === undefined) return it;
  throw new TypeError(`${what} has no option ${JSON.stringify(unknown)}, but ${names.join(' and ')}`);
}

/** A number of up to 53 bits, low word first. */
function longWords(it, what) {
  const noLong = `${what} is ${shown(it)}, and not an integer from 0 to ${Number.MAX_SAFE_INTEGER}`;
  if (typeof it !== 'number') throw new TypeError(noLong);
  if (!Number.isSafeInteger(it) || it < 0) throw new RangeError(noLong);
  return [it >>> 0, Math.floor(it / 2 ** 32)];
}

/** The limit of bytes that options of writing have, if there is one. */
function limitOf(options) {
  // (`lists.map(encodeMappings)` gives an index in their place)
  const { limit } = typeof options === 'object' && options !== null ? optionsOf(options, ['limit'], 'Writing') : {};
  return limit === undefined ? undefined : word(limit, 'limit');
}

/** Whether it is an ArrayBuffer or a SharedArrayBuffer, of any realm. */
function isBuffer(it) {
  return byteLengths.some((of) => {
    try {
      return of.call(it) >= 0;
    } catch {
      return false;
    }
  });
}

/** Bytes where they are: those of an array, a DataView, or a whole buffer, as it is now. */
function bytesOf(it, what) {
  if (isBytes(it)) return it;
  if (ArrayBuffer.isView(it)) return new Uint8Array(it.buffer, it.byteOffset, it.byteLength);
  if (!isBuffer(it)) throw new TypeError(`${what} are neither an array of bytes, a DataView nor a buffer`);
  return new Uint8Array(it, 0, it.byteLength);
}

/** Bytes of this length. */
function fixedBytes(it, length, what) {
  if (!isBytes(it)) throw new TypeError(`${what} is not a Uint8Array`);
  if (it.length !== length) throw new RangeError(`${what} has ${it.length} bytes, and not ${length}`);
  return it;
}

/** Whether the first argument of a lookup is an object that has all of them. */
function isPlace(it) {
  return typeof it === 'object' && it !== null;
}

/** An id, or what stands for none. */
function idWord(it, what) {
  return it === null || it === undefined ? NO_ID : word(it, what);
}

/** An id as it is told. */
function idOf(it) {
  return it === NO_ID ? null : it;
}

function list(it, what) {
  if (it === null || typeof it !== 'object' || typeof it[Symbol.iterator] !== 'function') {
    throw new TypeError(`${what} is not a list`);
  }
  return [...it];
}

function checkWords(it, what) {
  if (!isWords(it)) throw new TypeError(`${what} is not a Uint32Array`);
  return it;
}

/** Numbers of 32 bits, of a list. */
function words(it, what) {
  return isWords(it) ? it : Uint32Array.from(list(it, what), (entry) => word(entry, what));
}

function tokenWords(token) {
  if (token === null || typeof token !== 'object') throw new TypeError('A token is not an object');
  return [
    word(token.generatedLine, 'generatedLine'),
    word(token.generatedColumn, 'generatedColumn'),
    word(token.originalLine, 'originalLine'),
    word(token.originalColumn, 'originalColumn'),
    idWord(token.sourceId, 'sourceId'),
    idWord(token.nameId, 'nameId'),
  ];
}

/** Six words for each token. */
function tokens(it) {
  return isWords(it) ? it : Uint32Array.from(list(it, 'tokens').flatMap(tokenWords));
}

function joined(pieces, total) {
  const bytes = new Uint8Array(total);
  let at = 0;
  for (const piece of pieces) {
    bytes.set(piece, at);
    at += piece.length;
  }
  return bytes;
}

/** Texts, one by one. */
function packedPieces(all) {
  const pieces = all.map((it) => (typeof it === 'string' ? encoder.encode(it) : (it ?? new Uint8Array(0))));
  const lengths = Uint32Array.from(all, (it, i) => (it === null ? NO_ID : pieces[i].length));
  const total = pieces.reduce((sum, piece) => sum + piece.length, 0);
  return { bytes: joined(pieces, total), lengths };
}

/** Texts as their bytes and the length of each. Strings of ASCII are encoded at once, and have as many bytes as units. */
function texts(it, what, entry = text) {
  const all = list(it, what).map((one) => entry(one, what));
  if (all.every((one) => typeof one === 'string')) {
    const whole = all.join('');
    const bytes = encoder.encode(whole);
    if (bytes.length === whole.length) return { bytes, lengths: Uint32Array.from(all, (one) => one.length) };
  }
  return packedPieces(all);
}

/** The same, where null is a content that is not known. */
function contents(it, what) {
  return texts(it, what, (one) => (one === null ? null : text(one, what)));
}

module.exports = {
  text,
  shown,
  noWord,
  word,
  option,
  optionsOf,
  longWords,
  limitOf,
  bytesOf,
  fixedBytes,
  isPlace,
  idWord,
  idOf,
  list,
  checkWords,
  words,
  tokens,
  texts,
  contents,
};

'use strict';
// Random calls, by seed, of what the addon gives and of the classes over it: arguments of any type, maps that were freed or shared,
// arrays that are detached or shared, proxies, getters that free maps. Nothing may crash, and a map that nobody changes answers as before.
// FUZZ in the environment is how many calls, SEED the seed.

const test = require('node:test');
const assert = require('node:assert/strict');

const library = require('..');
const native = require('../lib/native.js');
const { TEXT, random, randomMap } = require('./support.js');

const { NO_ID, SourceMap, SourceMapError } = library;
const rounds = Number(process.env.FUZZ ?? 100_000);
const seed = Number(process.env.SEED ?? 1);

/** What a call of the addon may answer. */
const isAnswer = (it) => it === undefined || ['number', 'string', 'object'].includes(typeof it);

function detached(array) {
  structuredClone(array.buffer, { transfer: [array.buffer] });
  return array;
}

/** The same bytes in memory of their own. */
function copied(array, memory) {
  const out = new Uint8Array(new memory(array.length));
  out.set(array);
  return out;
}

/** Words as tokens and positions have them: so small that no line is far away. */
function words(next, memory = ArrayBuffer) {
  const length = [0, 1, 2, 5, 6, 8, 12, 16, 18, 24, 36, 48, 60, 96][next(14)];
  const out = new Uint32Array(new memory(4 * length));
  for (let i = 0; i < out.length; i++) out[i] = i % 6 > 3 && next(3) === 0 ? NO_ID : next(4);
  return out;
}

const SCOPES = 'BFAAA,DAC,BFCAC,CCA,CFA,EGAA,GCB,HBAFA,ECKC,IAFC,FK,FU';
const SCOPED = JSON.stringify({ names: ['f', 'g'], scopes: SCOPES });
const TEXTS = [
  TEXT,
  '',
  '{',
  '{"version":3,"sources":["a"],"names":[],"mappings":"G,D"}',
  '{"version":3,"sources":["a",null],"mappings":"AAAA"}',
  'AAAA;AACA,CAAA',
  SCOPES,
  SCOPED,
  'größe',
  '\ud800',
  'join 2 @0 0 @1 1',
  'data:application/json,%7B%7D',
  'x'.repeat(70_000),
  `${'é'.repeat(40_000)}`,
];

const COMPILED = Uint8Array.from(new SourceMap(TEXT).compile());

/** Makers of arguments, by their kind. */
const makers = {
  number: (next) => [0, 1, 2, 3, 4, 5, 7, 200, 65535, NO_ID, -1, 1.5, NaN, Infinity, 2 ** 40][next(15)],
  text: (next) => (next(2) === 0 ? TEXTS[next(TEXTS.length)] : bytes(next)),
  words: (next) => [words(next), words(next), words(next, SharedArrayBuffer), detached(words(next)), native.words, native.fault][next(6)],
  other: (next) =>
    [
      undefined,
      null,
      true,
      1n,
      Symbol('a'),
      () => 1,
      {},
      [],
      new Date(),
      new Int32Array(6),
      new Float64Array(6),
      new BigUint64Array(6),
      new DataView(new ArrayBuffer(24)),
      new ArrayBuffer(24),
      new SharedArrayBuffer(24),
      new Proxy(new Uint32Array(6), {}),
      new Proxy([], {}),
      new Proxy({}, { get: () => { throw new Error('of a proxy'); } }),
      { valueOf: () => 1, toString: () => '{}', length: 3 },
    ][next(19)],
};

function bytes(next) {
  const it = next(4) === 0 ? COMPILED : Buffer.from(TEXTS[next(TEXTS.length)]);
  const memory = next(3) === 0 ? SharedArrayBuffer : ArrayBuffer;
  const out = copied(it, memory);
  if (out.length > 0 && next(3) === 0) out[next(out.length)] = next(256);
  return memory === ArrayBuffer && next(8) === 0 ? detached(out) : out;
}

/** Handles that calls are made with: new ones take the places of old ones. */
class Pool {
  constructor(next) {
    this.next = next;
    this.handles = [native.fromJson(TEXT), native.builderNew(), native.joinNew(), native.openCompiled(COMPILED.slice()), native.decodeScopes(SCOPES, 2)];
  }

  one() {
    return this.handles[this.next(this.handles.length)];
  }

  keep(handle) {
    if (typeof handle !== 'object' || handle === null || Array.isArray(handle) || ArrayBuffer.isView(handle) || handle instanceof Promise) return;
    this.handles[this.next(8) === 0 ? this.next(5) : this.next(40)] = handle;
    this.handles = [...this.handles].map((it) => it ?? handle);
  }

  /** An array of handles, some of which run code when they are read. */
  array() {
    const out = Array.from({ length: this.next(4) }, () => this.one());
    const freed = this.one();
    if (this.next(6) === 0) Object.defineProperty(out, 0, { configurable: true, get: () => (native.free(freed), freed) });
    if (this.next(12) === 0) Object.defineProperty(out, 0, { get: () => { throw new RangeError('of a getter'); } });
    return out;
  }

  argument() {
    const kind = this.next(10);
    if (kind < 4) return this.one();
    if (kind < 6) return makers.number(this.next);
    if (kind < 7) return makers.text(this.next);
    if (kind < 8) return makers.words(this.next);
    if (kind < 9) return this.array();
    return makers.other(this.next);
  }
}

/** What each call takes, so that many calls are well made: h a handle, n a number, t a text, w words, b bytes, a an array of maps. */
const SHAPES = {
  fromJson: 't', readFound: 't', readAsync: 't', getMends: 'hw', fromTokens: 'wbwbwbww', decodeMappings: 'tnn', decodeTokens: 'tnnw', clone: 'h', free: 'h', share: 'h', takeShared: 'n',
  getCounts: 'h', isSorted: 'h', isSound: 'h', text: 'hnn', texts: 'hn', getToken: 'hn', getTokens: 'hw', getIgnoreList: 'hw',
  select: 'h', trace: '', traceAll: 'hwnw', findAll: 'hwnw', pieces: 'hnnnnw', firstDifference: 'hh', indexSources: 'h', generated: 'hnnnn', allGenerated: 'hnnnnw',
  setText: 'hnt', setTexts: 'hnbw', setIgnoreList: 'hw', applySourceRoot: 'h', sort: 'h', simplify: 'h',
  compose: 'hh', remap: 'hbwa', joinAll: 'aw', evaluate: 'bwbw', joinNew: '', joinAdd: 'hhnn', joinFinish: 'h',
  builderNew: '', builderAddName: 'ht', builderAddSource: 'htt', builderAddTokens: 'hw', builderSetFile: 'ht', builderFinish: 'h',
  write: 'hnt', writeBytes: 'hnt', encodeMappings: 'w', sourceMappingURL: 'tn', decodeDataURL: 't',
  compile: 'hnnb', openCompiled: 'b', compiledCounts: 'h', stamp: 'h', isIgnored: 'hn', decompile: 'h',
  readScopes: 't', decodeScopes: 'tn', scopesCounts: 'h', getScope: 'hn', getRange: 'hn', scopeAt: 'hnnn', functionAt: 'hnnn', rangeAt: 'hnn', framesAt: 'hnnw',
  getVariables: 'hnw', valueAt: 'hnnnn', scopeChainAt: 'hnnw', scopeChain: 'hnnnw',
  message: 'w', placeMessage: 'w', mendMessage: 'w', reasonMessage: 'tw', codeName: 'n',
};

function shaped(pool, letter) {
  const { next } = pool;
  if (next(12) === 0) return pool.argument();
  if (letter === 'h') return pool.one();
  if (letter === 'n') return next(3) === 0 ? makers.number(next) : next(4);
  if (letter === 't') return makers.text(next);
  if (letter === 'b') return bytes(next);
  if (letter === 'a') return pool.array();
  return makers.words(next);
}

/** Whether a map has a line so far away that its text would be too long to write here. */
function isFar(handle) {
  try {
    return native.getCounts(handle) === 0 && native.words[5] > 100_000;
  } catch {
    return false;
  }
}

function isTooLong(name, given) {
  if (name === 'write' || name === 'writeBytes') return isFar(given[0]);
  return name === 'encodeMappings' && (given[0] === native.words || given[0] === native.fault);
}

/** One call of the addon with random arguments. */
function call(pool, names) {
  const name = names[pool.next(names.length)];
  const given = [...SHAPES[name]].map((letter) => shaped(pool, letter));
  if (isTooLong(name, given)) return;
  if (name === 'trace') [native.words[13], native.words[14], native.words[15]] = [pool.next(9), pool.next(9), pool.next(4)];
  try {
    const out = native[name](...given);
    assert.ok(isAnswer(out), name);
    if (name === 'readAsync') out.then((it) => pool.keep(it));
    pool.keep(out);
  } catch (error) {
    assert.ok(error instanceof TypeError || error instanceof RangeError || error.message === 'of a proxy', `${name}: ${error.stack}`);
  }
}

test('calls of the addon', async () => {
  const next = random(seed);
  const pool = new Pool(next);
  const names = Object.keys(native).filter((it) => typeof native[it] === 'function');
  assert.deepEqual(Object.keys(SHAPES).sort(), [...names].sort());
  const map = new SourceMap(TEXT);
  const before = [map.toString(), map.trace(1, 1), [...map.tokens()]];
  for (let i = 0; i < rounds; i++) {
    call(pool, names);
    if (i % 1000 === 0) await new Promise(setImmediate);
  }
  assert.deepEqual([map.toString(), map.clone().trace(1, 1), [...map.tokens()]], before);
});

/** A call of a method or property of a class, with arguments that are more often right than not. */
function callOf(object, key, next, maps) {
  const argument = () =>
    [
      () => next(9),
      () => makers.number(next),
      () => makers.text(next),
      () => makers.words(next),
      () => maps[next(maps.length)],
      () => ({ line: next(4), column: next(9) }),
      () => [makers.text(next), makers.text(next)],
      () => [[makers.text(next), maps[next(maps.length)]]],
      () => [{ map: maps[next(maps.length)], line: next(9) }],
      () => makers.other(next),
      () => bytes(next),
      () => ({ textLength: makers.number(next), stamp: [undefined, new Uint8Array(32), makers.other(next)][next(3)] }),
    ][next(12)]();
  const given = Array.from({ length: next(5) }, argument);
  const value = Reflect.get(object, key, object);
  const out = typeof value === 'function' ? Reflect.apply(value, object, given) : value;
  if (out instanceof Promise) out.catch(() => {});
  return out;
}

test('calls of the classes', async () => {
  const next = random(seed + 1);
  const maps = Array.from({ length: 12 }, (_, i) => new SourceMap(JSON.stringify(randomMap(i).json)));
  const makersOfMaps = [new library.SourceMapBuilder(), new library.ConcatSourceMapBuilder()];
  const compiled = Array.from({ length: 4 }, (_, i) => new library.CompiledMap(maps[i].compile()));
  const scopes = Array.from({ length: 4 }, () => library.Scopes.read(SCOPED));
  const isLong = (map) => map instanceof SourceMap && isFarMap(map);
  for (let i = 0; i < rounds / 2; i++) {
    const object = [library, SourceMap, makersOfMaps[next(2)], maps[next(12)], maps[next(12)], maps[next(12)], compiled[next(4)], library.Scopes, scopes[next(4)]][next(9)];
    const keys = Object.getOwnPropertyNames(object instanceof Object && object.constructor !== Object && typeof object !== 'function' ? Object.getPrototypeOf(object) : object);
    const key = keys[next(keys.length)];
    if (['prototype', 'constructor', 'caller', 'arguments', 'encodeMappings'].includes(key) || isLong(object)) continue;
    try {
      const out = callOf(object, key, next, maps);
      if (out instanceof SourceMap) maps[next(12)] = out;
      if (out instanceof library.Scopes) scopes[next(4)] = out;
      if (key === 'compile') compiled[next(4)] = new library.CompiledMap(next(3) === 0 ? copied(out, SharedArrayBuffer) : out);
      if (next(20) === 0 && out?.buffer instanceof ArrayBuffer && key === 'compile') detached(out);
    } catch (error) {
      assert.ok(error instanceof SourceMapError || error instanceof TypeError || error instanceof RangeError || error.message === 'of a proxy', `${key}: ${error.stack}`);
    }
    if (i % 1000 === 0) {
      maps[next(12)] = new SourceMap(JSON.stringify(randomMap(i).json));
      await new Promise(setImmediate);
    }
  }
});

function isFarMap(map) {
  try {
    return map.counts.lines > 100_000;
  } catch {
    return false;
  }
}

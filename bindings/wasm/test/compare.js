#!/usr/bin/env node
// Asks the addon and the WebAssembly module the same, and compares the answers: texts, numbers and arrays byte for byte, and of each
// error all words of its fault.
//
//   compare.js ADDON MODULE maps FILE..             each map: read both ways, and everything that is asked of one map
//   compare.js ADDON MODULE pairs FILE..            compositions, remaps, joins and differences of maps that follow each other
//   compare.js ADDON MODULE texts COUNT SEED FILE.. texts that are changed at random
//   compare.js ADDON MODULE calls COUNT SEED FILE.. random calls one after the other, over maps, builders and joins that stay
//
// ADDON and MODULE are files that give what native.d.ts says. The last line is 'N passed, M failed'.
'use strict';

const assert = require('node:assert/strict');
const { readFileSync } = require('node:fs');
const { random } = require('../../node/test/random.js');

const [, , addonPath, modulePath, mode, ...rest] = process.argv;
const addon = require(addonPath);
const module_ = require(modulePath);

const NO_ID = 0xffffffff;
const NOTHING = new Uint32Array(0);

/** How many words a call answers. The bytes that a map holds (the last two of getCounts) are left out where maps were copied. */
const ANSWERS = { getCounts: 6, isSorted: 1, isSound: 1, getToken: 6, getTokens: 1, getIgnoreList: 1, trace: 8, pieces: 1, firstDifference: 2,
  generated: 7, allGenerated: 1, builderAddName: 1, builderAddSource: 1, getMends: 1, decodeTokens: 2, compiledCounts: 12, isIgnored: 1,
  scopesCounts: 6, getScope: 9, getRange: 11, scopeAt: 1, functionAt: 1, rangeAt: 1, framesAt: 2,
  getVariables: 1, valueAt: 1, scopeChainAt: 1, scopeChain: 1 };

/** The handles of both for one map, builder or join. */
class Pair {
  constructor(a, b) {
    this.a = a;
    this.b = b;
  }
}

const sideOf = (it, side) => {
  if (it instanceof Pair) return it[side];
  if (Array.isArray(it)) return it.map((one) => sideOf(one, side));
  return it instanceof Uint32Array && it.isOutput ? it[side] : it;
};

/** An array for both to write to. */
function output(length) {
  const out = new Uint32Array(0);
  return Object.assign(out, { isOutput: true, a: new Uint32Array(length).fill(7), b: new Uint32Array(length).fill(7) });
}

const isHandle = (it) => typeof it === 'object' && it !== null && !ArrayBuffer.isView(it) && !Array.isArray(it);
const plain = (it) => (ArrayBuffer.isView(it) ? Buffer.from(it.buffer, it.byteOffset, it.byteLength) : it);

/** Calls both and compares what they answer: a Pair of handles, or the answer. */
function both(name, ...given) {
  const [a, b] = [addon, module_].map((it, i) => it[name](...given.map((one) => sideOf(one, 'ab'[i]))));
  if (isHandle(a) && isHandle(b)) return new Pair(a, b);
  assert.deepEqual(plain(b), plain(a), name);
  const failed = typeof a === 'number' && a !== 0;
  if (failed) {
    assert.deepEqual([...module_.fault], [...addon.fault], `${name}: fault`);
    assert.equal(module_.message(module_.fault), addon.message(addon.fault), `${name}: message`);
    assert.equal(module_.placeMessage(module_.fault), addon.placeMessage(addon.fault), `${name}: place`);
    assert.equal(module_.codeName(a), addon.codeName(a));
  } else {
    const words = ANSWERS[name] ?? 0;
    assert.deepEqual([...module_.words.subarray(0, words)], [...addon.words.subarray(0, words)], `${name}: words`);
  }
  for (const it of given) if (it instanceof Uint32Array && it.isOutput && !failed) assert.deepEqual(plain(it.b), plain(it.a), `${name}: output`);
  return a;
}

/** The same where a call fills a list whose length it answers first. */
function filled(name, size, ...given) {
  if (both(name, ...given, NOTHING) !== 0) return null;
  const out = output(size * addon.words[0]);
  both(name, ...given, out);
  return out.a;
}

// ---- random positions ----

/** Positions in and around a code of so many lines. */
function positionsIn(next, lines, count) {
  return Uint32Array.from({ length: 2 * count }, (_, i) => (i % 2 === 0 ? next(lines + 2) : next(3) === 0 ? next(3000) : next(120)));
}

// ---- what is asked of one map ----

function asksTexts(map) {
  for (const which of [0, 1, 2]) {
    both('texts', map, which);
    for (const id of [0, 1, 7, NO_ID]) both('text', map, which, id);
  }
  for (const which of [3, 4, 5, 6]) both('text', map, which, 0);
  for (const form of [0, 1, 2, 5]) both('write', map, form, '');
  both('writeBytes', map, 0, '');
}

/** The number of lines, of tokens and of sources. */
function asksCounts(map) {
  both('getCounts', map);
  const [tokens, , sources, , , lines] = addon.words;
  both('isSorted', map);
  both('isSound', map);
  filled('getIgnoreList', 1, map);
  const all = filled('getTokens', 6, map);
  for (const index of [0, tokens - 1, tokens]) both('getToken', map, index >>> 0);
  return { tokens: all, lines, sources };
}

function traces(map, line, column, bias) {
  for (const native of [addon, module_]) {
    native.select(native === addon ? map.a : map.b);
    [native.words[13], native.words[14], native.words[15]] = [line, column, bias];
  }
  both('trace');
}

/** Lookups of a map or a compiled one. */
function asksLookups(map, next, lines, count) {
  const positions = positionsIn(next, lines, count);
  for (const bias of [0, 1, 2, 3]) {
    both('traceAll', map, positions, bias, output(4 * positions.length));
    both('findAll', map, positions, bias, output(positions.length / 2));
    for (let i = 0; i < 20; i += 2) traces(map, positions[i], positions[i + 1], bias);
  }
  return positions;
}

function asksPlaces(map, next, lines, count) {
  const positions = asksLookups(map, next, lines, count);
  filled('pieces', 5, map, positions[0], positions[1], positions[0] + next(20), positions[3]);
}

function asksSources(map, next, { tokens, sources }) {
  both('generated', map, 0, 0, 0, 0);
  both('indexSources', map);
  for (let i = 0; i < 20; i++) {
    const at = tokens.length === 0 ? 0 : 6 * next(tokens.length / 6);
    const place = tokens.length === 0 ? [0, 0, 0] : [tokens[at + 4], tokens[at + 2], (tokens[at + 3] + next(3) - 1) >>> 0];
    both('generated', map, ...place, next(5));
    filled('allGenerated', 1, map, ...place, next(4));
    both('generated', map, next(sources + 1), next(50), next(50), next(4));
  }
}

const STAMP = Uint8Array.from({ length: 32 }, (_, i) => 7 * i);

/** What is asked of a compiled map, which is freed. */
function asksCompiled(it, next, lines, count) {
  if (!(it instanceof Pair)) return;
  both('compiledCounts', it);
  both('stamp', it);
  for (const id of [0, 1, 7, 300, NO_ID]) {
    for (const which of [0, 1, 2, 3, 4, 5, 6]) both('text', it, which, id);
    both('isIgnored', it, id);
    both('getToken', it, id);
  }
  asksLookups(it, next, lines, count);
  const back = both('decompile', it);
  if (back instanceof Pair) both('write', back, 0, '', 1_000_000);
  free(back);
  free(it);
}

/** Compiles a map, and opens what was compiled, and that with some of it changed. */
function compiles(map, next, lines, count) {
  const bytes = both('compile', map, next(2), next(2), next(2) ? STAMP : new Uint8Array(0));
  both('compile', map, 0, 0, STAMP.subarray(1));
  if (typeof bytes === 'number') return;
  asksCompiled(both('openCompiled', bytes), next, lines, count);
  const changed = Uint8Array.from(bytes);
  for (let k = 1 + next(3); k > 0; k--) changed[next(3) === 0 ? next(88) : next(changed.length)] = next(256);
  asksCompiled(both('openCompiled', changed), next, lines, Math.min(count, 50));
}

/** What is asked of scopes, which are of a few lines. */
function asksScopes(scopes, next) {
  if (both('scopesCounts', scopes) === 0) for (const index of [next(8), addon.words[2], addon.words[4], NO_ID]) for (const name of ['getScope', 'getRange']) both(name, scopes, index);
  for (let i = 0; i < 8; i++) {
    const place = [next(9), next(30)];
    for (const name of ['scopeAt', 'functionAt']) both(name, scopes, next(3), ...place);
    both('rangeAt', scopes, ...place);
    both('framesAt', scopes, ...place, output(next(12)));
    filled('framesAt', 5, scopes, ...place);
    both('valueAt', scopes, next(4), next(3), ...place);
    both('scopeChainAt', scopes, ...place, output(next(5)));
    filled('scopeChainAt', 2, scopes, ...place);
    both('scopeChain', scopes, next(4), ...place, output(next(5)));
    filled('scopeChain', 2, scopes, next(4), ...place);
    both('getVariables', scopes, next(4), output(next(3)));
    filled('getVariables', 1, scopes, next(4));
  }
}

/** A text of scopes, with some of it changed more often than not. */
function scopesText(next) {
  const texts = ['BCAAC,BHBAEE,DI,CDB,BHBAGA,CCB,CBA,ECAA,EGKC,GH,ECKC,IADE,FK,FK,FBA', 'A,BEAAA,BABC,CBA,CBA,ENA,EA,IBAA,FC,FBA', 'BFAAA,CEA,BFBAA,CFA,EGAC,FJ,EGAD,FBC', 'BAAA,DAC,DC,CJA,ECAA,GEAG,HAAEFBCAADG,HCAAA,HBBAE,FEJ', 'A'];
  const text = texts[next(texts.length)];
  return next(3) === 0 ? text : mutated(Buffer.from(text), next).toString('latin1');
}

/** Changes a copy in each way, and writes it after each. */
function changes(map) {
  const copy = both('clone', map);
  const steps = [['setText', 3, 'größe.js'], ['setText', 4, '\ufeffroot/'], ['setText', 5, new Uint8Array([0xff])], ['applySourceRoot'], ['sort'], ['simplify'],
    ['setIgnoreList', new Uint32Array([0, 0])], ['setTexts', 1, Buffer.from('aé'), new Uint32Array([1, 2])], ['setTexts', 2, Buffer.from('x'), new Uint32Array([NO_ID, 1, 0])], ['setTexts', 0, Buffer.from(''), NOTHING]];
  for (const [name, ...given] of steps) {
    both(name, copy, ...given);
    both('write', copy, 0, '');
  }
  both('firstDifference', map, copy);
  free(copy);
}

const free = (it) => it instanceof Pair && both('free', it);

/** Everything that is asked of one map, of so many positions. */
function interrogate(map, next, count) {
  if (!(map instanceof Pair)) return;
  const counts = asksCounts(map);
  asksTexts(map);
  asksPlaces(map, next, counts.lines, count);
  asksSources(map, next, counts);
  compiles(map, next, Math.min(counts.lines, 50_000), count);
  changes(map);
}

const CODE = 'let größe = 1;\n//# sourceMappingURL=data:application/json;base64,eyJ2ZXJzaW9uIjozfQ==\n';

function compareMap(path, next) {
  const bytes = readFileSync(path);
  const found = both('readFound', bytes);
  if (found instanceof Pair) {
    filled('getMends', 6, found);
    both('write', found, 0, '');
    const mappings = both('write', found, 2, '');
    const decoded = both('decodeMappings', mappings, NO_ID, 3);
    filled('decodeTokens', 6, mappings, NO_ID, 3);
    both('decodeTokens', mappings, NO_ID, NO_ID, new Uint32Array(20));
    interrogate(decoded, next, 50);
    both('encodeMappings', addon.getTokens(found.a, NOTHING) === 0 ? tokensOf(found) : NOTHING);
    free(decoded);
  }
  free(found);
  const map = both('fromJson', bytes.toString());
  interrogate(map, next, 2000);
  if (map instanceof Pair && bytes.length < 200_000) for (const form of [3, 4]) both('write', map, form, CODE);
  free(map);
}

function tokensOf(map) {
  const out = new Uint32Array(6 * addon.words[0]);
  addon.getTokens(map.a, out);
  return out;
}

// ---- maps of maps ----

const reads = (path) => both('readFound', readFileSync(path));

function comparePair(path, other, next) {
  const [one, two] = [reads(path), reads(other)];
  if (one instanceof Pair && two instanceof Pair) {
    const source = sourceOf(one);
    const whole = both('compose', one, two);
    const remapped = both('remap', one, Buffer.from(source), new Uint32Array([Buffer.byteLength(source)]), [two]);
    const joined = both('joinAll', [one, two, one], new Uint32Array([0, 0, 90_000, 3, 200_000, 0]));
    both('joinAll', [one], NOTHING);
    both('firstDifference', one, two);
    both('firstDifference', one, one);
    for (const it of [whole, remapped, joined]) interrogate(it, next, 200);
    const join = both('joinNew');
    for (const [it, line] of [[two, 0], [one, 70_000], [two, 3]]) both('joinAdd', join, it, line, 2);
    const finished = both('joinFinish', join);
    interrogate(finished, next, 200);
    for (const it of [whole, remapped, joined, finished, join]) free(it);
  }
  const plan = ['join', '2', '@0', '3', '@1', '4'];
  free(evaluated(plan, [path, other].map((it) => readFileSync(it))));
  free(one);
  free(two);
}

function sourceOf(map) {
  const source = addon.text(map.a, 1, 0);
  return typeof source === 'string' ? source : 'a.js';
}

function evaluated(words, texts) {
  const lengths = (list) => Uint32Array.from(list, (it) => it.length);
  const plan = words.map((it) => Buffer.from(it));
  const map = both('evaluate', Buffer.concat(plan), lengths(plan), Buffer.concat(texts), lengths(texts));
  if (map instanceof Pair) both('write', map, 0, '');
  return map;
}

// ---- texts that are changed ----

const LETTERS = Buffer.from('AC;,gBxyz/+"\\{}[]:0123é\ufeff');

/** A text with some of it changed, taken out, doubled or cut off. */
function mutated(bytes, next) {
  let out = Buffer.from(bytes);
  for (let k = 1 + next(4); k > 0; k--) {
    const at = next(out.length);
    const kind = next(6);
    if (kind === 0) out[at] = next(256);
    if (kind === 1) out[at] = LETTERS[next(LETTERS.length)];
    if (kind === 2) out = Buffer.concat([out.subarray(0, at), out.subarray(at + 1 + next(5))]);
    if (kind === 3) out = Buffer.concat([out.subarray(0, at), out.subarray(next(out.length)).subarray(0, next(40)), out.subarray(at)]);
    if (kind === 4 && next(5) === 0) out = out.subarray(0, at);
    if (kind === 5) out = Buffer.concat([out.subarray(0, at), LETTERS.subarray(next(LETTERS.length)), out.subarray(at)]);
    if (out.length === 0) out = Buffer.from('{');
  }
  return out;
}

function compareText(bytes, next) {
  const positions = positionsIn(next, 20, 20);
  const text = next(4) === 0 ? bytes.toString() : bytes;
  for (const name of ['fromJson', 'readFound']) {
    const map = both(name, text);
    if (map instanceof Pair) {
      both('getCounts', map);
      both('write', map, 0, '');
      if (name === 'readFound') filled('getMends', 6, map);
      both('traceAll', map, positions, next(3), output(4 * positions.length));
      free(map);
    }
  }
  const url = next(30) === 0 ? `data:application/json${next(2) ? ';base64' : ''},${bytes.toString(next(2) ? 'base64' : 'utf8')}` : null;
  if (url !== null) both('decodeDataURL', url);
  if (next(30) === 0) both('sourceMappingURL', bytes, next(3));
}

// ---- calls one after the other ----

/** Handles of both sides, by kind. */
class Pool {
  constructor(next, texts) {
    this.next = next;
    this.texts = texts;
    const map = both('fromJson', texts[0]);
    const compiled = both('openCompiled', both('compile', map, 0, 0, STAMP));
    const scopes = both('decodeScopes', 'BEAAA,CBA,EAA,IAAA,FB', 0);
    this.of = { map: [map], builder: [both('builderNew')], join: [both('joinNew')], compiled: [compiled], scopes: [scopes] };
  }

  one(kind) {
    return this.of[kind][this.next(this.of[kind].length)];
  }

  keep(kind, it) {
    if (!(it instanceof Pair)) return;
    if (this.of[kind].length < 12) this.of[kind].push(it);
    else this.of[kind][this.next(12)] = it;
  }

  maps() {
    return Array.from({ length: this.next(4) }, () => this.one('map'));
  }

  /** Tokens that are in order more often than not, with ids that may be out of range. */
  tokens() {
    let line = 0;
    const out = new Uint32Array(6 * this.next(8));
    for (let i = 0; i < out.length; i += 6) {
      line += this.next(3);
      out.set([this.next(9) === 0 ? this.next(3) : line, this.next(20), this.next(4), this.next(9), this.id(), this.id()], i);
    }
    return out;
  }

  id() {
    return this.next(3) === 0 ? NO_ID : this.next(4);
  }

  text() {
    return ['a.ts', 'größe', '', '\ufeffx', 'a.ts', '\ud83d\ude00', 'x'.repeat(200), new Uint8Array([0x61, 0xff])][this.next(8)];
  }

  list() {
    const all = Array.from({ length: this.next(4) }, () => Buffer.from(this.text()));
    const lengths = Uint32Array.from(all, (it) => (this.next(5) === 0 && it.length === 0 ? NO_ID : it.length));
    return [Buffer.concat(all), lengths];
  }
}

const CALLS = {
  fromJson: (p) => p.keep('map', both('fromJson', p.texts[p.next(p.texts.length)])),
  readFound: (p) => p.keep('map', both('readFound', p.texts[p.next(p.texts.length)])),
  fromTokens: (p) => p.keep('map', both('fromTokens', p.tokens(), ...p.list(), ...p.list(), ...p.list(), p.next(2) ? NOTHING : new Uint32Array([p.next(3)]))),
  clone: (p) => p.keep('map', both('clone', p.one('map'))),
  compose: (p) => p.keep('map', both('compose', p.one('map'), p.one('map'))),
  remap: (p) => {
    const inputs = p.maps();
    const paths = inputs.map(() => Buffer.from(p.text()));
    p.keep('map', both('remap', p.one('map'), Buffer.concat(paths), Uint32Array.from(paths, (it) => it.length), inputs));
  },
  joinAll: (p) => {
    const maps = p.maps();
    p.keep('map', both('joinAll', maps, Uint32Array.from({ length: 2 * maps.length }, () => p.next(30))));
  },
  difference: (p) => both('firstDifference', p.one('map'), p.one('map')),
  builderNew: (p) => p.keep('builder', both('builderNew')),
  builderAddName: (p) => both('builderAddName', p.one('builder'), p.text()),
  builderAddSource: (p) => both('builderAddSource', p.one('builder'), p.text(), p.next(2) ? null : p.text()),
  builderAddTokens: (p) => both('builderAddTokens', p.one('builder'), p.tokens()),
  builderSetFile: (p) => both('builderSetFile', p.one('builder'), p.text()),
  builderFinish: (p) => p.keep('map', both('builderFinish', p.one('builder'))),
  joinNew: (p) => p.keep('join', both('joinNew')),
  joinAdd: (p) => both('joinAdd', p.one('join'), p.one('map'), p.next(40), p.next(3)),
  joinFinish: (p) => p.keep('map', both('joinFinish', p.one('join'))),
  setText: (p) => both('setText', p.one('map'), 2 + p.next(5), p.text()),
  setTexts: (p) => both('setTexts', p.one('map'), p.next(4), ...p.list()),
  setIgnoreList: (p) => both('setIgnoreList', p.one('map'), p.next(3) ? new Uint32Array([p.next(9)]) : NOTHING),
  change: (p) => both(['sort', 'simplify', 'applySourceRoot', 'indexSources'][p.next(4)], p.one('map')),
  ask: (p) => asks(p.one('map'), p.next),
  write: (p) => both('write', p.one('map'), p.next(6), CODE),
  compile: (p) => compiles(p.one('map'), p.next, 30, 12),
  openCompiled: (p) => {
    const bytes = both('compile', p.one('map'), 0, 0, STAMP);
    if (typeof bytes !== 'number') p.keep('compiled', both('openCompiled', bytes));
  },
  askCompiled: (p) => asksLookups(p.one('compiled'), p.next, 30, 12),
  decompile: (p) => p.keep('map', both('decompile', p.one('compiled'))),
  readScopes: (p) => p.keep('scopes', both('readScopes', JSON.stringify({ names: Array(p.next(9)).fill('n'), scopes: scopesText(p.next) }))),
  decodeScopes: (p) => p.keep('scopes', both('decodeScopes', scopesText(p.next), p.next(9))),
  askScopes: (p) => asksScopes(p.one('scopes'), p.next),
  free: (p) => p.next(6) === 0 && free(p.one(['map', 'builder', 'join', 'compiled', 'scopes'][p.next(5)])),
};

function asks(map, next) {
  if (both('getCounts', map) !== 0) {
    asksTexts(map);
    return;
  }
  asksTexts(map);
  const counts = asksCounts(map);
  asksPlaces(map, next, Math.min(counts.lines, 50), 12);
  if (next(4) === 0) asksSources(map, next, counts);
}

// ---- runs ----

let passed = 0;
let failed = 0;

/** Runs one comparison, and tells of it where it fails. */
function compares(name, run) {
  try {
    run();
    passed++;
  } catch (error) {
    failed++;
    if (failed < 4) console.log(`${name}: ${error.stack.slice(0, 1500)}`);
  }
}

const numbered = () => [Number(rest[0]), random(Number(rest[1])), rest.slice(2)];

const RUNS = {
  maps() {
    for (const path of rest) compares(path, () => compareMap(path, random(1)));
  },
  pairs() {
    for (let i = 0; i + 1 < rest.length; i++) compares(`${rest[i]}, ${rest[i + 1]}`, () => comparePair(rest[i], rest[i + 1], random(i)));
  },
  texts() {
    const [count, next, files] = numbered();
    const texts = files.map((it) => readFileSync(it)).filter((it) => it.length < 30_000);
    for (let i = 0; i < count; i++) {
      const text = mutated(texts[next(texts.length)], next);
      compares(`text ${i} ${JSON.stringify(text.toString('latin1')).slice(0, 300)}`, () => compareText(text, next));
    }
  },
  calls() {
    const [count, next, files] = numbered();
    const pool = new Pool(next, files.map((it) => readFileSync(it)).filter((it) => it.length < 10_000));
    const names = Object.keys(CALLS);
    for (let i = 0; i < count; i++) {
      const name = names[next(names.length)];
      compares(`call ${i}, ${name}`, () => CALLS[name](pool));
    }
  },
};

RUNS[mode]();
console.log(`${passed} passed, ${failed} failed`);
process.exitCode = failed === 0 ? 0 : 1;

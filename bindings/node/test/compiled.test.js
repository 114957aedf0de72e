'use strict';
// Compiled maps: each answers as the map that was compiled, whatever its bytes lie in; bytes that no map was compiled to, and bytes that are
// taken away.

const test = require('node:test');
const assert = require('node:assert/strict');
const { execFileSync } = require('node:child_process');
const { once } = require('node:events');
const { mkdtempSync, rmSync, writeFileSync } = require('node:fs');
const { tmpdir } = require('node:os');
const { join } = require('node:path');
const { pathToFileURL } = require('node:url');
const { inspect } = require('node:util');
const vm = require('node:vm');
const { MessageChannel, Worker } = require('node:worker_threads');

const { NO_ID, Bias, CompiledMap, ConcatSourceMapBuilder, SourceMap, SourceMapBuilder, SourceMapError } = require('..');
const { MAP, TEXT, TOKENS, isModule, flat, simple, fails, found, random, randomMap, positionsOf, realMaps } = require('./support.js');

const BIASES = [Bias.BEFORE, Bias.CLAMPED, Bias.AFTER];
const STAMP = Uint8Array.from({ length: 32 }, (_, i) => 255 - i);

const copyIn = (bytes, memory) => {
  const out = new Uint8Array(new memory(bytes.length));
  out.set(bytes);
  return out.buffer;
};

/** Ids, some of which a list of so many entries has. */
const idsBeside = (count) => [...Array(Math.min(count, 300)).keys(), count - 1, count, count + 1, NO_ID].filter((it) => it >= 0);

/** Every position of a map, a line and two columns further than its tokens. */
function everyPosition(tokens) {
  const widths = [];
  for (let at = 0; at < tokens.length; at += 6) widths[tokens[at]] = Math.max(widths[tokens[at]] ?? 0, tokens[at + 1]);
  return Uint32Array.from([...widths, 0].flatMap((width = 0, line) => Array.from({ length: width + 3 }, (_, column) => [line, column]).flat()));
}

/** Positions at the tokens of a map, and beside them. */
function positionsBeside(tokens) {
  const out = [];
  for (let at = 0; at < tokens.length; at += 6) for (const column of [-1, 0, 1]) out.push(tokens[at], Math.max(0, tokens[at + 1] + column));
  return Uint32Array.from([...out, 0, 0, NO_ID, NO_ID, 0, NO_ID]);
}

/** Whether a compiled map answers for positions as its map, of some of them one by one. */
function sameLookups(compiled, map, positions, step = 1) {
  for (const bias of BIASES) {
    assert.deepEqual(compiled.findAll(positions, bias), map.findAll(positions, bias));
    assert.deepEqual(compiled.traceAll(positions, bias), map.traceAll(positions, bias));
    for (let i = 0; i < positions.length; i += 2 * step) {
      const [line, column] = [positions[i], positions[i + 1]];
      assert.deepEqual(compiled.trace(line, column, bias), map.trace(line, column, bias));
      assert.deepEqual(compiled.traceToken({ line, column, bias }), map.traceToken({ line, column, bias }));
    }
  }
}

/** Whether it holds what its map does. */
function sameHoldings(compiled, map) {
  const { tokens, names, sources, ignoreList } = map.counts;
  assert.deepEqual(compiled.counts, { tokens, names, sources, ignoreList });
  for (const member of ['file', 'sourceRoot', 'debugId']) assert.equal(compiled[member], map[member], member);
  for (const id of idsBeside(names)) assert.equal(compiled.getName(id), map.getName(id));
  assert.deepEqual([compiled.names, compiled.sources], [[...map.names], [...map.sources]]);
  assert.deepEqual(compiled.sourcesContent, Array.from(map.sources, (_, id) => map.getSourceContent(id)));
  for (const id of idsBeside(sources)) {
    assert.equal(compiled.getSource(id), map.getSource(id));
    assert.equal(compiled.getSourceContent(id), id < sources ? map.getSourceContent(id) : null);
    assert.equal(compiled.isIgnored(id), map.ignoreList?.includes(id) ?? false);
  }
  assert.equal(compiled.hasIgnoreList, map.ignoreList !== null);
  for (const index of idsBeside(tokens)) assert.deepEqual(compiled.token(index), map.token(index));
}

/** Whether it is decompiled to its map, which has contents past its sources no more, and null for those that it does not have. */
function decompiles(compiled, map) {
  const back = compiled.decompile();
  const { sources } = map.counts;
  const contents = map.sourcesContent;
  assert.deepEqual(back.sourcesContent.slice(0, contents.length), contents.slice(0, sources));
  assert.ok(back.sourcesContent.slice(contents.length).every((it) => it === null));
  back.setSourcesContent(contents);
  assert.equal(back.toString(), map.toString());
}

function same(map, positions, step) {
  const compiled = new CompiledMap(map.compile());
  sameLookups(compiled, map, positions, step);
  sameHoldings(compiled, map);
  decompiles(compiled, map);
  compiled.free();
}

/** Maps that a text cannot have: with ids out of range, far lines, large numbers. */
function strangeMaps() {
  const ids = new ConcatSourceMapBuilder();
  const builder = new SourceMapBuilder();
  builder.addSource('a');
  builder.addName('n');
  builder.addTokens(flat([[0, 0, 1, 1, 0, 0], [0, 2, 1, 1, 7, 0], [0, 4, 1, 1, 0, 9], [0, 6, 1, 1, NO_ID, 0], [3, 6, NO_ID, NO_ID, NO_ID - 1, NO_ID - 1]]));
  ids.addSourceMap(builder.finish(), 2, 3);
  const far = SourceMap.fromTokens(flat([[0, NO_ID, 0, 0, 0, NO_ID], [NO_ID - 1, 5, NO_ID, 0, NO_ID, NO_ID], [NO_ID, NO_ID, 3, NO_ID, 0, NO_ID]]), { sources: ['s'] });
  const contents = SourceMap.fromTokens(flat(TOKENS), { names: ['a', 'b'], sources: ['a', 'b'], sourcesContent: ['x', null, 'past', ''] });
  return [ids.finish(), far, contents, SourceMap.fromTokens([]), SourceMap.fromTokens([], { sources: [''], names: [''], sourcesContent: [''], file: '', debugId: '' })];
}

test('a map of which all is known', () => {
  const map = new SourceMap(TEXT);
  const bytes = map.compile({ textLength: Buffer.byteLength(TEXT), stamp: STAMP });
  assert.equal(Buffer.isBuffer(bytes), !isModule);
  const compiled = new CompiledMap(bytes);
  assert.deepEqual(compiled.counts, { tokens: 4, names: 2, sources: 2, ignoreList: 1 });
  assert.equal(compiled.textLength, Buffer.byteLength(TEXT));
  assert.deepEqual(Uint8Array.from(compiled.stamp), STAMP);
  assert.deepEqual([compiled.file, compiled.sourceRoot, compiled.debugId], [MAP.file, MAP.sourceRoot, MAP.debugId]);
  assert.deepEqual([compiled.getName(1), compiled.getSource(1), compiled.getSourceContent(0), compiled.getSourceContent(1)], ['größe', 'b.ts', 'let hi;', null]);
  assert.deepEqual([compiled.isIgnored(0), compiled.isIgnored(1), compiled.hasIgnoreList], [false, true, true]);
  assert.deepEqual(compiled.trace(1, 1), { source: 'b.ts', line: 1, column: 0, name: 'größe', index: 3 });
  assert.deepEqual(compiled.trace({ line: 0, column: 5 }), { source: 'a.ts', line: 0, column: 9, name: 'hi', index: 1 });
  assert.equal(compiled.trace(0, 8), null);
  const token = { generatedLine: 0, generatedColumn: 8, originalLine: 0, originalColumn: 9, sourceId: null, nameId: null, index: 2 };
  assert.deepEqual([compiled.traceToken(0, 9), compiled.token(2), compiled.token(4)], [token, token, null]);
  assert.deepEqual([...compiled.findAll(Uint32Array.of(0, 4, 1, 0), Bias.AFTER)], [2, 3]);
  assert.equal(compiled.decompile().toString(), map.toString());
  assert.match(inspect(compiled), /^CompiledMap \{ tokens: 4, /);
  assert.equal(inspect({ compiled }, { depth: 0 }), '{ compiled: [CompiledMap] }');
});

test('the header is that of docs/FORMAT.md', () => {
  const bytes = Buffer.from(new SourceMap(TEXT).compile({ textLength: 2 ** 40 + 7, stamp: STAMP }));
  assert.equal(bytes.toString('latin1', 0, 4), 'smap');
  assert.equal(bytes.readUInt32LE(4), 1);
  assert.deepEqual([bytes.readBigUInt64LE(8), bytes.readBigUInt64LE(16)], [BigInt(bytes.length), 2n ** 40n + 7n]);
  assert.deepEqual(Uint8Array.from(bytes.subarray(24, 56)), STAMP);
  assert.deepEqual([0, 1, 2, 3, 4].map((i) => bytes.readUInt32LE(56 + 4 * i)), [4, 2, 2, 2, 1]);
});

test('random maps: every position, by the map and by the words of the documentation', () => {
  for (let seed = 0; seed < 60; seed++) {
    const { tokens, json } = randomMap(seed);
    const map = new SourceMap(JSON.stringify(json));
    same(map, everyPosition(map.tokens()));
    const compiled = new CompiledMap(map.compile());
    for (const [line, column] of positionsOf(tokens, random(seed))) {
      for (const bias of BIASES) assert.equal(compiled.traceToken(line, column, bias)?.index ?? -1, found(tokens, line, column, bias));
    }
  }
});

test('real maps', () => {
  let count = 0;
  for (const { path, bytes, refused } of realMaps()) {
    if (refused !== null) continue;
    const map = new SourceMap(bytes);
    map.sort();
    const tokens = map.tokens();
    const every = bytes.length < 100_000 ? everyPosition(tokens) : positionsBeside(tokens);
    const positions = every.length < 600_000 ? every : positionsBeside(tokens);
    assert.doesNotThrow(() => same(map, positions, Math.ceil(positions.length / 4000)), path);
    map.free();
    count++;
  }
  assert.ok(count > 0 || realMaps().length === 0);
});

test('maps that no text has', () => {
  for (const map of strangeMaps()) {
    const compiled = new CompiledMap(map.compile());
    sameLookups(compiled, map, positionsBeside(map.tokens()));
    sameHoldings(compiled, map);
    assert.deepEqual(compiled.decompile().tokens(), map.tokens());
  }
});

test('what compile takes, and what it refuses', () => {
  const map = new SourceMap(TEXT);
  const plain = new CompiledMap(map.compile());
  assert.deepEqual([plain.textLength, [...plain.stamp]], [0, Array(32).fill(0)]);
  assert.deepEqual(map.compile({}), map.compile({ textLength: 0, stamp: undefined }));
  for (const textLength of [0, 1, 2 ** 32, Number.MAX_SAFE_INTEGER]) assert.equal(new CompiledMap(map.compile({ textLength })).textLength, textLength);
  const shared = new Uint8Array(copyIn(STAMP, SharedArrayBuffer));
  assert.deepEqual(Uint8Array.from(new CompiledMap(map.compile({ stamp: shared })).stamp), STAMP);
  for (const textLength of [-1, 0.5, NaN, Infinity, 2 ** 53]) assert.throws(() => map.compile({ textLength }), RangeError);
  for (const textLength of ['1', null, 1n]) assert.throws(() => map.compile({ textLength }), TypeError);
  for (const length of [0, 31, 33]) assert.throws(() => map.compile({ stamp: new Uint8Array(length) }), RangeError);
  for (const stamp of ['x'.repeat(32), null, [...STAMP], new Uint32Array(32)]) assert.throws(() => map.compile({ stamp }), TypeError);
  fails({ code: 'SMAP_UNSORTED' }, () => new SourceMap(simple('CAAA,DAAA')).compile());
  map.free();
  fails({ code: 'SMAP_NULL_HANDLE' }, () => map.compile());
});

test('each kind of bytes', () => {
  const map = new SourceMap(TEXT);
  const bytes = Uint8Array.from(map.compile());
  const padded = Buffer.concat([Buffer.from('abc'), bytes, Buffer.from('d')]);
  const part = padded.subarray(3, -1);
  const kinds = [
    Buffer.from(bytes),
    bytes,
    bytes.slice().buffer,
    copyIn(bytes, SharedArrayBuffer),
    new Uint8Array(copyIn(bytes, SharedArrayBuffer)),
    new DataView(part.buffer, part.byteOffset, part.byteLength),
    part,
    new Uint8ClampedArray(bytes),
    vm.runInNewContext('new Uint8Array(n)', { n: [...bytes] }),
    vm.runInNewContext('new Uint8Array(n).buffer', { n: [...bytes] }),
  ];
  const positions = everyPosition(map.tokens());
  for (const it of kinds) sameLookups(new CompiledMap(it), map, positions);
  for (const it of [undefined, null, 1, TEXT, {}, [...bytes], new Proxy(bytes, {}), Object.create(ArrayBuffer.prototype)]) assert.throws(() => new CompiledMap(it), TypeError);
  fails({ code: 'SMAP_NOT_COMPILED' }, () => new CompiledMap(new ArrayBuffer(0)));
  fails({ code: 'SMAP_NOT_COMPILED' }, () => new CompiledMap(Buffer.from(TEXT)));
  assert.throws(() => CompiledMap(bytes), TypeError);
  assert.throws(() => CompiledMap.prototype.trace.call(map, 0, 0), TypeError);
});

// ---- bytes that no map was compiled to ----

/** Asks everything; each answer is one, or an error of the package. */
function interrogate(bytes) {
  const asks = [
    (it) => [it.counts, it.textLength, it.stamp, it.hasIgnoreList, it.file, it.sourceRoot, it.debugId],
    (it) => [0, 1, 2, 3, NO_ID].map((id) => [it.getName(id), it.getSource(id), it.getSourceContent(id), it.isIgnored(id), it.token(id)]),
    (it) => it.decompile().free(),
  ];
  for (const bias of BIASES) {
    asks.push((it) => {
      for (const [line, column] of [[0, 0], [0, 3], [0, 9], [1, 1], [1, NO_ID], [2, 0], [NO_ID, NO_ID]]) {
        const token = it.traceToken(line, column, bias);
        assert.ok(token === null || token.generatedLine === line);
        const { source, name } = it.trace(line, column, bias) ?? { source: '', name: null };
        assert.ok(typeof source === 'string' && (name === null || typeof name === 'string'));
      }
      it.traceAll(Uint32Array.of(0, 1, 1, 5, 7, 7), bias);
    });
  }
  const said = [];
  try {
    const map = new CompiledMap(bytes);
    for (const ask of asks) {
      try {
        ask(map);
      } catch (error) {
        said.push(error);
      }
    }
    map.free();
  } catch (error) {
    said.push(error);
  }
  for (const error of said) assert.ok(error instanceof SourceMapError, String(error.stack));
  return said.map((it) => it.code);
}

test('the errors of bytes', () => {
  const bytes = Uint8Array.from(new SourceMap(TEXT).compile());
  const changed = (at, value) => bytes.with(at, value);
  fails({ code: 'SMAP_NOT_COMPILED', detail: 0, place: null, message: 'not a compiled source map' }, () => new CompiledMap(changed(0, 7)));
  fails({ code: 'SMAP_COMPILED_VERSION', detail: 2, message: 'unsupported version of a compiled source map: 2' }, () => new CompiledMap(changed(4, 2)));
  fails({ code: 'SMAP_COMPILED_LENGTH', message: 'a compiled source map has another length than it says' }, () => new CompiledMap(bytes.subarray(0, -1)));
  fails({ code: 'SMAP_COMPILED_SIZES', message: 'the sizes in a compiled source map do not add up' }, () => new CompiledMap(changed(59, 255)));
  fails({ message: 'This is a compiled map: open it by CompiledMap' }, () => new SourceMap(bytes));
  const latin = Uint8Array.from(new SourceMap({ ...MAP, file: 'qqqq' }).compile());
  const broken = new CompiledMap(latin.with(Buffer.from(latin).indexOf('qqqq') + 1, 0xff));
  assert.equal(broken.file, 'q\ufffdqq');
  fails({ code: 'SMAP_NO_ENTRY', message: 'The compiled map is damaged' }, () => broken.decompile());
  // The first line begins behind the second, or the last one ends before it begins.
  for (const turned of [changed(88, TOKENS.length), changed(96, 2)]) fails({ code: 'SMAP_NO_ENTRY' }, () => new CompiledMap(turned).decompile());
});

test('texts that overlap', () => {
  const names = Array.from({ length: 40 }, (_, id) => String(id).padStart(100, '.'));
  const bytes = Buffer.from(SourceMap.fromTokens([], { names }).compile());
  assert.deepEqual(new CompiledMap(bytes).names, names);
  // Behind the header and where the first line begins: each other name has all bytes of the texts.
  const damaged = Buffer.from(bytes);
  names.forEach((_, id) => damaged.writeUInt32LE(4000 * (id % 2), 92 + 4 * id));
  const map = new CompiledMap(damaged);
  assert.equal(map.getName(38).length, 4000);
  fails({ code: 'SMAP_NO_ENTRY', message: 'The compiled map is damaged' }, () => map.names);
});

test('bytes that are cut, changed or random', () => {
  const bytes = Uint8Array.from(new SourceMap(TEXT).compile({ stamp: STAMP }));
  for (let length = 0; length < bytes.length; length++) assert.equal(interrogate(bytes.subarray(0, length)).length, 1);
  for (let at = 0; at < bytes.length; at++) {
    for (const value of [0, 1, 127, 128, 255, bytes[at] ^ 1, bytes[at] ^ 64]) interrogate(bytes.with(at, value));
  }
  const next = random(3);
  for (let i = 0; i < 3000; i++) {
    const out = bytes.slice();
    for (let k = next(6); k >= 0; k--) out[(i % 2 ? 56 : 88) + next(out.length - 88)] = next(256);
    interrogate(out);
  }
});

// ---- what is freed, and bytes that are taken away ----

const CALLS = [
  (it) => it.counts,
  (it) => it.textLength,
  (it) => it.stamp,
  (it) => it.hasIgnoreList,
  (it) => it.file,
  (it) => it.sourceRoot,
  (it) => it.debugId,
  (it) => it.getName(0),
  (it) => it.getSource(0),
  (it) => it.getSourceContent(0),
  (it) => it.names,
  (it) => it.sources,
  (it) => it.sourcesContent,
  (it) => it.isIgnored(0),
  (it) => it.token(0),
  (it) => it.trace(0, 0),
  (it) => it.traceToken(0, 0),
  (it) => it.traceAll(Uint32Array.of(0, 0)),
  (it) => it.traceAll(Uint32Array.of(0)),
  (it) => it.findAll(Uint32Array.of(0, 0)),
  (it) => it.findAll(Uint32Array.of(0)),
  (it) => it.decompile(),
];

function isGone(map) {
  for (const call of CALLS) fails({ code: 'SMAP_NULL_HANDLE' }, () => call(map));
  assert.equal(inspect(map), 'CompiledMap (freed)');
}

test('a map that was freed', () => {
  const bytes = new SourceMap(TEXT).compile();
  const [map, other] = [new CompiledMap(bytes), new CompiledMap(bytes)];
  const back = map.decompile();
  map.trace(0, 0);
  map.free();
  isGone(map);
  map.free();
  map[Symbol.dispose]?.();
  isGone(map);
  for (const call of CALLS.filter((it) => !/0\)\)$/.test(it))) call(other);
  assert.equal(other.trace(1, 1).name, 'größe');
  assert.equal(back.toString(), new SourceMap(TEXT).toString());
});

test('maps and compiled maps, asked in turn', () => {
  const map = new SourceMap(TEXT);
  const maps = [0, 1, 2].map((line) => new CompiledMap(SourceMap.fromTokens(flat([[0, 0, line, 0, 0, NO_ID]]), { sources: [`s${line}`] }).compile()));
  for (let i = 0; i < 30; i++) {
    assert.equal(maps[i % 3].trace(0, 0).source, `s${i % 3}`);
    assert.equal(new SourceMap(TEXT).trace(1, 1).source, 'b.ts');
    assert.equal(map.trace(0, 3).name, 'hi');
  }
  maps[0].trace(0, 0);
  maps[0].free();
  assert.equal(map.clone().trace(0, 3).name, 'hi');
  fails({ code: 'SMAP_NULL_HANDLE' }, () => maps[0].trace(0, 0));
  fails({ code: 'SMAP_BAD_OPTION' }, () => maps[1].trace(0, 0, 3));
  fails({ code: 'SMAP_BAD_OPTION' }, () => maps[1].traceAll(Uint32Array.of(0, 0), 3));
  fails({ code: 'SMAP_BAD_OPTION' }, () => maps[1].findAll(Uint32Array.of(0, 0), 3));
  for (const [positions, out] of [[1, 8], [2, 7], [2, 9], [4, 8]]) fails({ code: 'SMAP_LENGTHS' }, () => maps[1].traceAll(new Uint32Array(positions), 0, new Uint32Array(out)));
  for (const [positions, out] of [[1, 1], [2, 0], [2, 2]]) fails({ code: 'SMAP_LENGTHS' }, () => maps[1].findAll(new Uint32Array(positions), 0, new Uint32Array(out)));
});

test('a file of a compiled map', (t) => {
  const room = mkdtempSync(join(tmpdir(), 'junketscarp-'));
  t.after(() => rmSync(room, { recursive: true }));
  const path = join(room, 'a b.smc');
  const map = new SourceMap(TEXT);
  writeFileSync(path, map.compile());
  const opened = [CompiledMap.openFile(path), CompiledMap.openFile(pathToFileURL(path))];
  writeFileSync(path, '');
  for (const it of opened) sameHoldings(it, map);
  fails({ code: 'SMAP_NOT_COMPILED' }, () => CompiledMap.openFile(path));
  assert.throws(() => CompiledMap.openFile(join(room, 'none')), { code: 'ENOENT', message: /none/ });
  // (a number is a descriptor to the calls of Node)
  for (const it of [0, undefined, Buffer.from(path)]) assert.throws(() => CompiledMap.openFile(it), { name: 'TypeError', message: /^The path is .*, and neither a string nor a URL$/ });
});

test('many positions, more than are asked at once', () => {
  const map = new SourceMap(TEXT);
  const positions = Uint32Array.from({ length: 2 * 9001 }, (_, i) => (i % 2 === 0 ? i % 3 : i % 13));
  sameLookups(new CompiledMap(map.compile()), map, positions, 100);
});

/** Ways to take bytes away, each of a buffer of which they are all. */
const TAKES = {
  structuredClone: (buffer) => structuredClone(buffer, { transfer: [buffer] }),
  postMessage: (buffer) => {
    const { port1, port2 } = new MessageChannel();
    port1.postMessage(buffer, [buffer]);
    port1.close();
    port2.close();
  },
  transfer: (buffer) => buffer.transfer?.(5) ?? structuredClone(buffer, { transfer: [buffer] }),
};

test('bytes that were transferred', { skip: isModule && 'a WebAssembly module has a copy' }, () => {
  const given = new SourceMap({ ...MAP, sourcesContent: ['x'.repeat(100_000)] }).compile();
  for (const take of Object.values(TAKES)) {
    const buffer = copyIn(given, ArrayBuffer);
    const maps = [new CompiledMap(buffer), new CompiledMap(new Uint8Array(buffer)), new CompiledMap(new DataView(buffer))];
    maps[0].trace(1, 1);
    take(buffer);
    assert.equal(buffer.byteLength, 0);
    maps.forEach(isGone);
    maps.forEach((it) => it.free());
    assert.throws(() => new CompiledMap(buffer), TypeError);
  }
  const array = Uint8Array.from(given);
  structuredClone(array, { transfer: [array.buffer] });
  fails({ code: 'SMAP_NOT_COMPILED' }, () => new CompiledMap(array));
});

test('a buffer that was made shorter or longer', { skip: isModule && 'a WebAssembly module has a copy' }, () => {
  const given = new SourceMap(TEXT).compile();
  const buffer = new ArrayBuffer(given.length, { maxByteLength: 1_000_000 });
  new Uint8Array(buffer).set(given);
  const [fixed, whole] = [new CompiledMap(buffer), new CompiledMap(new Uint8Array(buffer))];
  assert.equal(whole.trace(1, 1).name, 'größe');
  buffer.resize(1_000_000);
  assert.equal(fixed.trace(1, 1).name, 'größe');
  isGone(whole);
  buffer.resize(16);
  isGone(fixed);
  const memory = new WebAssembly.Memory({ initial: 1 });
  new Uint8Array(memory.buffer).set(given, 5);
  const within = new CompiledMap(new Uint8Array(memory.buffer, 5, given.length));
  assert.equal(within.trace(1, 1).name, 'größe');
  memory.grow(1);
  isGone(within);
});

test('a module has a copy, whatever happens to the bytes', { skip: !isModule && 'the addon has none' }, () => {
  for (const take of Object.values(TAKES)) {
    const buffer = copyIn(new SourceMap(TEXT).compile(), ArrayBuffer);
    const map = new CompiledMap(buffer);
    take(buffer);
    sameHoldings(map, new SourceMap(TEXT));
  }
});

test('bytes that are changed against the rules crash nothing', () => {
  const next = random(5);
  for (let i = 0; i < 400; i++) {
    const bytes = Uint8Array.from(new SourceMap(TEXT).compile());
    const map = new CompiledMap(bytes);
    for (let k = 0; k < 30; k++) bytes[next(bytes.length)] = next(256);
    for (const call of CALLS.filter((it) => !/0\)\)$/.test(it))) {
      try {
        call(map);
      } catch (error) {
        assert.ok(error instanceof SourceMapError, String(error.stack));
      }
    }
  }
});

// ---- threads and memory ----

const SCRIPT = `
  const { CompiledMap } = require(${JSON.stringify(require.resolve('..'))});
  const { parentPort, workerData } = require('node:worker_threads');
  const { buffer, positions } = workerData;
  const map = new CompiledMap(buffer);
  parentPort.once('message', () => {
    const found = [0, 1, 2].map((bias) => map.traceAll(positions, bias));
    const names = Array.from({ length: positions.length / 2 }, (_, i) => map.trace(positions[2 * i], positions[2 * i + 1]));
    parentPort.postMessage({ found, names, root: map.sourceRoot });
  });
  parentPort.postMessage('open');`;

test('workers over one buffer, which stays when this thread lets go of it', async (t) => {
  const { tokens, json } = randomMap(7);
  const map = new SourceMap({ ...json, sourceRoot: 'größe' });
  const positions = flat(positionsOf(tokens, random(1), 500));
  const buffer = copyIn(map.compile(), SharedArrayBuffer);
  const here = new CompiledMap(buffer);
  const workers = Array.from({ length: 4 }, () => new Worker(SCRIPT, { eval: true, workerData: { buffer, positions } }));
  t.after(() => Promise.all(workers.map((it) => it.terminate())));
  for (const it of await Promise.all(workers.map((worker) => once(worker, 'message')))) assert.deepEqual(it, ['open']);
  const answers = workers.map((worker) => once(worker, 'message'));
  workers.forEach((worker) => worker.postMessage('go'));
  sameLookups(here, map, positions);
  here.free();
  const expected = BIASES.map((bias) => map.traceAll(positions, bias));
  for (const [{ found: all, names, root }] of await Promise.all(answers)) {
    assert.deepEqual(all, expected);
    assert.deepEqual(names, Array.from(names, (_, i) => map.trace(positions[2 * i], positions[2 * i + 1])));
    assert.equal(root, 'größe');
  }
});

/** What a script in a new process says. */
function run(script) {
  const whole = `const { SourceMap, CompiledMap } = require(${JSON.stringify(require.resolve('..'))}); ${script}`;
  return JSON.parse(execFileSync(process.execPath, ['--expose-gc', '-e', whole], { encoding: 'utf8' }));
}

const isSanitized = process.env.JUNKETSCARP_SANITIZED !== undefined;
const PEAK = 'process.stdout.write(String(process.resourceUsage().maxRSS / 1024));';
const LARGE = `const large = (n) => new SourceMap({ version: 3, sources: ['a'], sourcesContent: ['x'.repeat(n)], names: [], mappings: 'AAAA' }).compile();`;

test('a map keeps its bytes', () => {
  const said = run(`${LARGE}
    const maps = Array.from({ length: 50 }, () => new CompiledMap(large(100_000)));
    for (let i = 0; i < 5; i++) { gc(); new Uint8Array(10_000_000).fill(i); }
    process.stdout.write(JSON.stringify(maps.map((it) => it.getSourceContent(0) === 'x'.repeat(100_000))));`);
  assert.deepEqual(said, Array(50).fill(true));
});

test('the bytes of maps that are dropped are collected', { skip: isModule || isSanitized }, () => {
  const peak = run(`${LARGE} for (let i = 0; i < 3000; i++) new CompiledMap(large(500_000)).trace(0, 0); ${PEAK}`);
  assert.ok(peak < 300, `${peak} MB`);
});

test('nothing is copied', { skip: isModule || isSanitized }, () => {
  const peak = run(`${LARGE} const bytes = large(20_000_000); const maps = Array.from({ length: 100 }, () => new CompiledMap(bytes)); ${PEAK}`);
  assert.ok(peak < 400, `${peak} MB`);
});

test('bytes are let go of by free', { skip: isModule }, () => {
  const said = run(`${LARGE}
    const weak = [];
    (() => {
      for (let i = 0; i < 4; i++) {
        const bytes = large(1000);
        weak.push(new WeakRef(bytes));
        globalThis[i] = new CompiledMap(bytes);
      }
      for (let i = 0; i < 2; i++) globalThis[i].free();
    })();
    setImmediate(() => { gc(); setImmediate(() => process.stdout.write(JSON.stringify(weak.map((it) => it.deref() !== undefined)))); });`);
  assert.deepEqual(said, [false, false, true, true]);
});

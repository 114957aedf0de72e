'use strict';
// Arguments of the wrong type or out of range: each is refused before anything is done.

const test = require('node:test');
const assert = require('node:assert/strict');
const { isExternal } = require('node:util/types');
const vm = require('node:vm');

const { Bias, SourceMap, CompiledMap, Scopes, SourceMapBuilder, ConcatSourceMapBuilder, evaluate, encodeMappings, decodeMappings, sourceMappingURL, decodeDataURL } = require('..');
const native = require('../lib/native.js');
const { TEXT, TOKENS, flat, isModule } = require('./support.js');

const map = new SourceMap(TEXT);
const compiled = new CompiledMap(map.compile());
const scopes = Scopes.decode('BAAA,CBA,EAA,FB', 0);
const builder = new SourceMapBuilder();
const join = new ConcatSourceMapBuilder();

/** Calls with one number each. */
const NUMBERS = [
  (it) => map.trace(it, 0),
  (it) => map.trace(0, it),
  (it) => map.trace(0, 0, it),
  (it) => map.traceToken(it, 0),
  (it) => map.traceToken(0, it),
  (it) => map.findAll(new Uint32Array(2), it),
  (it) => map.traceAll(new Uint32Array(2), it),
  (it) => map.pieces({ line: it, column: 0 }, { line: 0, column: 0 }),
  (it) => map.pieces({ line: 0, column: 0 }, { line: 0, column: it }),
  (it) => map.generated(it, 0, 0),
  (it) => map.generated(0, it, 0),
  (it) => map.generated(0, 0, it),
  (it) => map.allGenerated(0, 0, 0, it),
  (it) => map.token(it),
  (it) => map.getName(it),
  (it) => map.getSource(it),
  (it) => map.getSourceContent(it),
  (it) => map.setIgnoreList([it]),
  (it) => compiled.trace(it, 0),
  (it) => compiled.trace(0, it),
  (it) => compiled.trace(0, 0, it),
  (it) => compiled.traceToken(it, 0),
  (it) => compiled.findAll(new Uint32Array(2), it),
  (it) => compiled.traceAll(new Uint32Array(2), it),
  (it) => compiled.token(it),
  (it) => compiled.getName(it),
  (it) => compiled.getSource(it),
  (it) => compiled.getSourceContent(it),
  (it) => compiled.isIgnored(it),
  (it) => Scopes.decode('', typeof it === 'object' ? { it } : it),
  (it) => scopes.scope(it),
  (it) => scopes.range(it),
  (it) => scopes.scopeAt(it, 0, 0),
  (it) => scopes.scopeAt(0, it, 0),
  (it) => scopes.scopeAt(0, 0, it),
  (it) => scopes.functionAt({ source: it, line: 0, column: 0 }),
  (it) => scopes.functionAt({ source: 0, line: it, column: 0 }),
  (it) => scopes.functionAt({ source: 0, line: 0, column: it }),
  (it) => scopes.rangeAt(it, 0),
  (it) => scopes.rangeAt(0, it),
  (it) => scopes.framesAt({ line: it, column: 0 }),
  (it) => scopes.framesAt(0, it),
  (it) => scopes.variables(it),
  (it) => scopes.valueAt(it, 0, 0, 0),
  (it) => scopes.valueAt(0, it, 0, 0),
  (it) => scopes.valueAt(0, 0, { line: it, column: 0 }),
  (it) => scopes.valueAt(0, 0, 0, it),
  (it) => scopes.scopeChainAt({ line: it, column: 0 }),
  (it) => scopes.scopeChainAt(0, it),
  (it) => scopes.scopeChain(it, 0, 0),
  (it) => scopes.scopeChain(0, { line: it, column: 0 }),
  (it) => scopes.scopeChain(0, 0, it),
  (it) => SourceMap.join([{ map, line: it }]),
  (it) => SourceMap.join([{ map, line: 0, column: it ?? null }]),
  (it) => SourceMap.shared(it),
  (it) => SourceMap.fromMappings('', { names: it ?? null }),
  (it) => decodeMappings('', { sources: it ?? null }),
  (it) => sourceMappingURL('', it ?? null),
  (it) => join.addSourceMap(map, it),
  (it) => builder.addToken(it, 0, 0, 0),
  (it) => builder.addToken(0, it, 0, 0),
  (it) => builder.addToken(0, 0, it, 0),
  (it) => builder.addToken(0, 0, 0, it),
  (it) => builder.addTokens([{ generatedLine: 0, generatedColumn: it, originalLine: 0, originalColumn: 0 }]),
];
/** And with one text each. */
const TEXTS = [
  (it) => new SourceMap(it),
  (it) => SourceMap.found(it),
  (it) => SourceMap.fromMappings(it),
  (it) => SourceMap.fromTokens([], { names: [it] }),
  (it) => SourceMap.fromTokens([], { sources: [it] }),
  (it) => SourceMap.fromTokens([], { sourcesContent: ['a', it ?? 0] }),
  (it) => SourceMap.fromTokens([], { file: it ?? 0 }),
  (it) => map.setFile(it),
  (it) => map.setSourceRoot(it),
  (it) => map.setDebugId(it),
  (it) => map.setSources(['a', it]),
  (it) => map.setSourcesContent([it ?? 0]),
  (it) => map.visualize(it),
  (it) => map.visualizerURL(it),
  (it) => map.remap([[it, map]]),
  (it) => evaluate(['@0', it], []),
  (it) => evaluate('@0', [it]),
  (it) => sourceMappingURL(it),
  (it) => decodeDataURL(it),
  (it) => Scopes.read(it),
  (it) => Scopes.decode(it, 0),
  (it) => builder.addName(it),
  (it) => builder.addSource(it),
  (it) => builder.addSource('a', it ?? 0),
  (it) => builder.setFile(it),
];
const LISTS = [
  (it) => SourceMap.fromTokens(it),
  (it) => SourceMap.fromTokens([], { names: it ?? 0 }),
  (it) => SourceMap.fromTokens([], { ignoreList: it ?? 0 }),
  (it) => SourceMap.join(it),
  (it) => map.setSources(it),
  (it) => map.setSourcesContent(it),
  (it) => map.setIgnoreList(it),
  (it) => evaluate('@0', it),
  (it) => encodeMappings(it),
  (it) => Scopes.decode('', it === 1 ? undefined : it),
  (it) => builder.addTokens(it),
];
const WORDS = [
  (it) => map.findAll(it),
  (it) => map.traceAll(it),
  (it) => map.findAll(new Uint32Array(2), Bias.BEFORE, it ?? null),
  (it) => map.traceAll(new Uint32Array(2), Bias.BEFORE, it ?? null),
  (it) => map.tokens(it ?? null),
  (it) => compiled.findAll(it),
  (it) => compiled.traceAll(it),
  (it) => compiled.findAll(new Uint32Array(2), Bias.BEFORE, it ?? null),
  (it) => compiled.traceAll(new Uint32Array(2), Bias.BEFORE, it ?? null),
];
const MAPS = [
  (it) => map.compose(it),
  (it) => map.firstDifference(it),
  (it) => map.remap([['a', it]]),
  (it) => SourceMap.join([{ map: it, line: 0 }]),
  (it) => join.addSourceMap(it, 0),
];

test('numbers', () => {
  for (const call of NUMBERS) {
    for (const number of [-1, 1.5, NaN, Infinity, -Infinity, 2 ** 32, 1e300]) assert.throws(() => call(number), RangeError);
    for (const other of ['1', null, 1n, {}, [], Symbol('a'), true]) {
      if (other === '1' && /\bmap\.(generated|getSourceContent)\(it/.test(call)) continue; // the name of a source
      if (other === null && (String(call).includes('?? null') || String(call).includes('addToken('))) continue;
      assert.throws(() => call(other), TypeError, String(call));
    }
  }
  assert.equal(map.trace(-0, -0).index, 0);
  assert.equal(map.trace(4294967295, 4294967295), null);
  for (const [given, said] of [['1', '"1"'], [1.5, '1.5'], [undefined, 'undefined'], [null, 'null'], [[1], 'of the type object']]) {
    assert.throws(() => map.trace(0, given), { message: `The column is ${said}, and not an integer from 0 to 4294967295` });
  }
});

test('numbers of options', () => {
  assert.throws(() => map.trace(0, 0, 'BEFORE'), { name: 'TypeError', message: 'The bias is "BEFORE", and no number of Bias' });
  assert.throws(() => compiled.traceAll(new Uint32Array(2), -1), { name: 'RangeError', message: 'The bias is -1, and no number of Bias' });
  assert.throws(() => map.generated(0, 0, 0, 'AT'), { message: 'The direction is "AT", and no number of Direction' });
  assert.throws(() => sourceMappingURL('', 'css'), { message: 'The language is "css", and no number of Language' });
  assert.throws(() => compiled.trace(0, 0, 3), { code: 'SMAP_BAD_OPTION', message: 'It is no number of Bias, Direction or Language' });
});

test('options of other names', () => {
  const message = 'compile has no option "textlength", but textLength and stamp';
  assert.throws(() => map.compile({ textlength: 1 }), { name: 'TypeError', message });
  for (const it of [null, 1, 'a']) assert.throws(() => map.compile(it), { name: 'TypeError', message: /^The options of compile are \S+, and not an object$/ });
  for (const call of [(it) => map.toString(it), (it) => map.toBytes(it), (it) => map.toDataURL(it), (it) => encodeMappings([], it)]) {
    assert.throws(() => call({ limit: 999, Limit: 999 }), { name: 'TypeError', message: 'Writing has no option "Limit", but limit' });
  }
  assert.deepEqual([[], [[[0]]]].map(encodeMappings), ['', 'A']);
});

test('texts', () => {
  for (const call of TEXTS) {
    for (const other of ['\ud800', 1, null, undefined, {}, [], new Uint16Array(2), new DataView(new ArrayBuffer(2)), new ArrayBuffer(2), new Proxy(new Uint8Array(2), {}), Object('{}')]) {
      if (Array.isArray(other) && String(call).includes('fromMappings')) continue; // decoded mappings of no lines
      assert.throws(() => call(other), TypeError, String(call));
    }
  }
});

test('lists', () => {
  for (const call of LISTS) {
    for (const other of [1, null, 'ab', {}, true]) {
      if (other === null && String(call).includes('ignoreList')) continue;
      assert.throws(() => call(other), TypeError, String(call));
    }
  }
});

test('arrays of numbers', () => {
  for (const call of WORDS) {
    for (const other of [1, null, [0, 0], new Int32Array(2), new Uint8Array(8), new Float64Array(2), new Proxy(new Uint32Array(2), {})]) {
      assert.throws(() => call(other), TypeError, String(call));
    }
  }
});

test('maps', () => {
  for (const call of MAPS) {
    for (const other of [1, null, undefined, {}, TEXT, builder, Object.create(SourceMap.prototype), new Proxy(map, {})]) {
      assert.throws(() => call(other), { name: 'TypeError', message: 'It is not a SourceMap' }, String(call));
    }
  }
  assert.throws(() => map.remap(null), TypeError);
  assert.throws(() => SourceMap.prototype.trace.call({}, 0, 0), TypeError);
  assert.throws(() => SourceMap(TEXT), TypeError);
});

test('nothing of what was refused is left', () => {
  assert.equal(map.toString(), new SourceMap(TEXT).toString());
  assert.equal(builder.finish().toString(), '{"version":3,"names":[],"sources":[],"mappings":""}');
  assert.equal(join.finish().toString(), '{"version":3,"names":[],"sources":[],"mappings":""}');
});

test('arrays of another realm', () => {
  const bytes = vm.runInNewContext('new Uint8Array(n)', { n: [...Buffer.from(TEXT)] });
  assert.equal(bytes instanceof Uint8Array, false);
  assert.equal(new SourceMap(bytes).toString(), map.toString());
  const positions = vm.runInNewContext('Uint32Array.of(0, 3, 1, 1)');
  assert.deepEqual([...map.findAll(positions)], [1, 3]);
});

test('arrays whose buffer was detached', () => {
  const detached = (array) => {
    structuredClone(array.buffer, { transfer: [array.buffer] });
    return array;
  };
  assert.throws(() => new SourceMap(detached(new Uint8Array(99))), { code: 'SMAP_JSON_READING' });
  assert.equal(map.findAll(detached(new Uint32Array(2))).length, 0);
  assert.throws(() => map.findAll(Uint32Array.of(0, 0), Bias.BEFORE, detached(new Uint32Array(1))), { code: 'SMAP_LENGTHS' });
  assert.throws(() => map.tokens(detached(new Uint32Array(24))), { code: 'SMAP_LENGTHS' });
  assert.equal(SourceMap.fromTokens(detached(flat(TOKENS))).counts.tokens, 0);
});

test('what runs while arguments are read', () => {
  const other = new SourceMap(TEXT);
  const parts = [{ map: other, line: 0 }, { get map() { other.free(); return map; }, line: 1 }];
  assert.throws(() => SourceMap.join(parts), { code: 'SMAP_NULL_HANDLE' });
  const bytes = Buffer.from(TEXT);
  const names = { *[Symbol.iterator]() { structuredClone(bytes.buffer, { transfer: bytes.buffer.byteLength === bytes.length ? [bytes.buffer] : [] }); yield 'a'; } };
  assert.deepEqual(SourceMap.fromTokens([], { sources: [bytes], names }).names, ['a']);
});

test('what another addon or Node itself has made external is no handle', () => {
  const { TCP, constants } = process.binding('tcp_wrap');
  const socket = new TCP(constants.SOCKET);
  const foreign = socket._externalStream;
  assert.ok(isExternal(foreign));
  for (const call of ['getCounts', 'clone', 'select', 'builderFinish', 'free']) assert.throws(() => native[call](foreign), TypeError, call);
  socket.close();
});

test('the addon, called past the classes', () => {
  const [handle, builderHandle, joinHandle] = [native.fromJson(TEXT), native.builderNew(), native.joinNew()];
  const compiledHandle = native.openCompiled(native.compile(handle, 0, 0, new Uint8Array(0)));
  const none = [new Uint8Array(0), new Uint32Array(0)];
  const wrong = [
    () => native.getCounts(builderHandle),
    () => native.getCounts(joinHandle),
    () => native.builderFinish(handle),
    () => native.builderFinish(joinHandle),
    () => native.joinFinish(handle),
    () => native.joinFinish(builderHandle),
    () => native.joinAdd(joinHandle, builderHandle, 0, 0),
    () => native.compose(handle, joinHandle),
    () => native.joinAll([handle, builderHandle], new Uint32Array(4)),
    // (JavaScript itself cannot tell that this is no array)
    ...(isModule ? [] : [() => native.joinAll(new Proxy([handle], {}), new Uint32Array(2))]),
    () => native.remap(handle, ...none, {}),
    () => native.select(builderHandle),
    () => native.compile(compiledHandle, 0, 0, none[0]),
    () => native.compile(handle, 0, 0, none[1]),
    () => native.openCompiled('smap'),
    () => native.openCompiled(new Uint32Array(50)),
    () => native.openCompiled(new ArrayBuffer(200)),
    () => native.compiledCounts(handle),
    () => native.stamp(handle),
    () => native.isIgnored(handle, 0),
    () => native.decompile(handle),
    () => native.getCounts(compiledHandle),
    () => native.write(compiledHandle, 0, ''),
    () => native.traceAll(builderHandle, none[1], 0, none[1]),
    () => native.getToken(joinHandle, 0),
    () => native.text(joinHandle, 0, 0),
    () => native.free({}),
    () => native.free(),
    () => native.getCounts(),
    () => native.getTokens(handle, new Int32Array(24)),
    () => native.getTokens(handle, new Float64Array(24)),
    () => native.fromJson(new Uint32Array(4)),
    () => native.message(new Uint32Array(6)),
    () => native.mendMessage(new Uint32Array(18)),
    () => native.reasonMessage('{', new Uint32Array(17)),
    () => native.reasonMessage('{', new Uint32Array(19)),
    // The lengths of texts are above their bytes.
    () => native.fromTokens(none[1], Buffer.from('ab'), Uint32Array.of(3), ...none, ...none, none[1]),
    () => native.setTexts(handle, 1, Buffer.from('ab'), Uint32Array.of(1, 1, 1)),
    () => native.evaluate(Buffer.from('@0'), Uint32Array.of(2), Buffer.from('{}'), Uint32Array.of(1, 4294967294)),
  ];
  for (const call of wrong) assert.throws(call, TypeError, String(call));
  assert.equal(native.text(handle, 6, 0), 105);
  assert.equal(native.text(compiledHandle, 6, 0), 105);
  assert.equal(native.compile(handle, 0, 0, new Uint8Array(31)), 102);
  assert.equal(native.texts(handle, 3), 105);
  assert.equal(native.setText(handle, 0, 'a'), 105);
  assert.equal(native.setTexts(handle, 0, ...none), 105);
  assert.equal(native.write(handle, 5, ''), 105);
  assert.equal(native.fault[0], 105);
  assert.equal(native.joinAll([handle], new Uint32Array(3)), 102);
  assert.equal(native.joinAll([handle], new Uint32Array(4)), 102);
  assert.equal(native.write(handle, 0), native.write(native.clone(handle), 0, ''));
});

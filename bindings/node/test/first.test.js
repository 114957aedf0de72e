'use strict';
// What people try first: values and URLs, lookups by one object and by names, iteration, decoded mappings, members of others, and what a
// console shows.

const test = require('node:test');
const assert = require('node:assert/strict');
const { writeFileSync, mkdtempSync, rmSync } = require('node:fs');
const { tmpdir } = require('node:os');
const { join } = require('node:path');
const { pathToFileURL } = require('node:url');
const { inspect } = require('node:util');

const { Bias, Direction, SourceMap, SourceMapBuilder, decodeMappings, encodeMappings } = require('..');
const { MAP, TEXT, TOKENS, fails, flat, isModule, peer, needs, simple } = require('./support.js');

const codec = peer('@jridgewell/sourcemap-codec');
const tracing = peer('@jridgewell/trace-mapping');
const DECODED = [[[0, 0, 0, 0], [3, 0, 0, 9, 0], [8]], [[1, 1, 1, 0, 1]]];

// ---- what a map is read from ----

const texts = (map) => [map.toString(), map.sources, map.sourcesContent];

test('the value of a map', () => {
  const expected = texts(new SourceMap(TEXT));
  assert.deepEqual(texts(new SourceMap(MAP)), expected);
  assert.deepEqual(texts(new SourceMap(Object.freeze({ ...MAP, mappings: DECODED }))), expected);
  assert.deepEqual(texts(new SourceMap({ toJSON: () => MAP })), expected);
  assert.deepEqual(texts(new SourceMap(new SourceMap(TEXT))), expected);
  assert.deepEqual(texts(SourceMap.found({ ...MAP, mappings: DECODED }).map), expected);
  assert.equal(new SourceMap({ version: 3, sources: [], names: [], mappings: [] }).mappings, '');
  assert.equal(new SourceMap({ version: 3, sources: [], mappings: [[], [], [[2]]] }).mappings, ';;E');
});

test('the value of an indexed map, with mappings of both kinds', () => {
  const section = (line, column, map) => ({ offset: { line, column }, map: { version: 3, names: [], ...map } });
  const map = new SourceMap({
    version: 3,
    sections: [
      section(0, 0, { sources: ['a.js'], mappings: [[[0, 0, 0, 0], [4, 0, 0, 4]]] }),
      section(0, 10, { sources: ['b.js'], mappings: 'AAAA;AACA' }),
      section(6, 0, { sources: ['c.js'], mappings: [[[1, 0, 2, 3]]] }),
    ],
  });
  assert.equal(map.mappings, 'AAAA,IAAI,MCAJ;AACA;;;;;CCCG');
  assert.deepEqual(map.sources, ['a.js', 'b.js', 'c.js']);
});

test('a value is refused as its text is, and what is none as before', () => {
  fails({ code: 'SMAP_JSON_SHAPE', field: 'sources' }, () => new SourceMap({ version: 3, mappings: '' }));
  fails({ code: 'SMAP_JSON_SHAPE', field: 'mappings' }, () => new SourceMap({ version: 3, sources: [], mappings: [0] }));
  fails({ code: 'SMAP_BAD_SOURCE_REFERENCE' }, () => new SourceMap({ version: 3, sources: [], mappings: [[[0, 0, 0, 0]]] }));
  fails({ code: 'SMAP_JSON_SHAPE' }, () => new SourceMap({ version: 3, sections: [null] }));
  fails({ code: 'SMAP_JSON_SHAPE' }, () => new SourceMap({ version: 3, sections: [{ offset: { line: 0, column: 0 } }] }));
  assert.throws(() => new SourceMap({ version: 3, sources: ['a'], mappings: [[[-1]]] }), RangeError);
  assert.throws(() => new SourceMap({ version: 3, sources: ['a'], mappings: [[['0']]] }), TypeError);
  for (const it of [{}, { version: 3 }, { sources: [] }, new Map(), () => {}, { toJSON: () => undefined }]) {
    assert.throws(() => new SourceMap(it), { name: 'TypeError', message: /^The JSON text is neither a string/ }, inspect(it));
  }
});

test('a URL', async () => {
  const room = mkdtempSync(join(tmpdir(), 'junketscarp-'));
  try {
    const path = join(room, 'größe %.map');
    writeFileSync(path, TEXT);
    const url = pathToFileURL(path);
    assert.equal(new SourceMap(url).toString(), TEXT_WRITTEN);
    assert.equal((await SourceMap.read(url)).toString(), TEXT_WRITTEN);
    assert.throws(() => new SourceMap(pathToFileURL(`${path}.none`)), { code: 'ENOENT' });
  } finally {
    rmSync(room, { recursive: true });
  }
  const data = (text) => new URL(`data:application/json;base64,${Buffer.from(text).toString('base64')}`);
  assert.equal(new SourceMap(data(TEXT)).toString(), TEXT_WRITTEN);
  assert.equal(SourceMap.found(data(TEXT)).mends.length, 0);
  fails({ code: 'SMAP_JSON_READING' }, () => new SourceMap(data('{')));
  assert.throws(() => new SourceMap(new URL('https://x.org/a.map')), { name: 'TypeError', message: /neither a file nor JSON data: https:/ });
  assert.throws(() => new SourceMap(new URL('data:text/plain,a')), TypeError);
});
const TEXT_WRITTEN = new SourceMap(TEXT).toString();

// ---- members that the format does not know ----

test('members of others are kept if that is asked', async () => {
  const more = { x_facebook_sources: [[{ names: ['<global>'], mappings: 'AAA' }]], x_b: 'größe "\\', x_google_ignoreList: [0], extra: 1, other_x_b: 2 };
  const given = JSON.stringify({ ...MAP, ignoreList: undefined, ...more });
  const kept = { x_facebook_sources: more.x_facebook_sources, x_b: more.x_b };
  const options = { keepUnknown: true };
  const found = SourceMap.found(`\ufeff)]}'\n${given}`, options).map;
  const of = (it) => new SourceMap(it, options);
  const maps = [of(given), of(Buffer.from(given)), of(JSON.parse(given)), await SourceMap.read(given, options), found, of(given).clone()];
  for (const map of maps) {
    assert.deepEqual(map.unknownMembers, kept);
    assert.ok(Object.isFrozen(map.unknownMembers));
    const plain = new SourceMap(given).toJSON();
    assert.deepEqual(map.toJSON(), { ...plain, ...kept });
    assert.equal(map.toString(), JSON.stringify({ ...plain, ...kept }));
    assert.equal(Buffer.from(map.toBytes()).toString(), map.toString());
    assert.equal(of(new URL(map.toDataURL())).toString(), map.toString());
    assert.equal(map.toDataURL().split(',')[0], new SourceMap(given).toDataURL().split(',')[0]);
    for (const write of ['toString', 'toBytes', 'toDataURL']) {
      const most = Buffer.byteLength(map[write]());
      assert.deepEqual(map[write]({ limit: most }), map[write]());
      for (const limit of [0, 40, most - 1]) fails({ code: 'SMAP_TOO_LARGE' }, () => map[write]({ limit }));
    }
  }
  assert.equal(new SourceMap(given).unknownMembers, null);
  assert.equal(of(TEXT).unknownMembers, null);
  assert.equal(SourceMap.found(new SourceMap(given).toDataURL(), options).map.unknownMembers, null);
  assert.deepEqual(SourceMap.found(of(given).toDataURL(), options).map.unknownMembers, kept);
  fails({ code: 'SMAP_JSON_READING' }, () => of('{'));
  fails({ code: 'SMAP_JSON_READING' }, () => SourceMap.found('{', options));
  await assert.rejects(SourceMap.read('{', options), { code: 'SMAP_JSON_READING' });
});

// ---- lookups ----

test('a position may be one object', () => {
  const map = new SourceMap(TEXT);
  assert.deepEqual(map.trace({ line: 0, column: 4 }), map.trace(0, 4));
  assert.deepEqual(map.trace({ line: 0, column: 4 }).source, 'a.ts');
  assert.equal(map.trace({ line: 1, column: 0 }), null);
  assert.equal(map.trace({ line: 1, column: 0, bias: Bias.AFTER }).source, 'b.ts');
  assert.equal(map.traceToken({ line: 0, column: 9 }).index, 2);
  assert.equal(map.traceToken({ line: 1, column: 0, bias: Bias.CLAMPED }).index, 3);
  assert.equal(map.generated({ source: 'a.ts', line: 0, column: 9 }).index, 1);
  assert.equal(map.generated({ source: 1, line: 1, column: 5 }), null);
  assert.equal(map.generated({ source: 1, line: 1, column: 5, direction: Direction.FOR }).index, 3);
  assert.deepEqual([...map.allGenerated({ source: 'a.ts', line: 0, column: 0, direction: Direction.ON_LINE })], [0, 1]);
  for (const call of ['trace', 'traceToken', 'generated', 'allGenerated']) {
    assert.throws(() => map[call]({ line: -1, column: 0, source: 0 }), RangeError, call);
    assert.throws(() => map[call]({ line: 0, source: 0 }), TypeError, call);
    assert.throws(() => map[call](null), TypeError, call);
  }
});

test('a source may be told by its name', () => {
  const map = new SourceMap({ version: 3, sources: ['a.js', 'b.js', 'a.js', '1'], sourcesContent: ['A', null, 'C', 'D'], names: [], mappings: [[[0, 0, 0, 0], [1, 1, 0, 0], [2, 2, 0, 0], [3, 3, 0, 0]]] });
  for (const [name, id] of [['a.js', 0], ['b.js', 1], ['1', 3]]) {
    assert.deepEqual(map.generated(name, 0, 0), map.generated(id, 0, 0));
    assert.equal(map.generated(name, 0, 0).index, id);
    assert.deepEqual([...map.allGenerated(name, 0, 0)], [id]);
  }
  assert.deepEqual(['a.js', 'b.js', '1', 'c.js', 2].map((it) => map.getSourceContent(it)), ['A', null, 'D', null, 'C']);
  assert.equal(map.generated('c.js', 0, 0), null);
  assert.deepEqual(map.allGenerated('', 0, 0), new Uint32Array(0));
  assert.throws(() => map.generated('c.js', -1, 0), RangeError);
  fails({ code: 'SMAP_BAD_OPTION' }, () => map.generated('a.js', 0, 0, 4));
  map.setSources(['c.js', 'a.js', 'b.js', 'd.js']);
  assert.deepEqual(['a.js', 'c.js', '1'].map((it) => map.generated(it, 0, 0)?.index ?? null), [1, 0, null]);
  map.free();
  fails({ code: 'SMAP_NULL_HANDLE' }, () => map.generated('a.js', 0, 0));
});

// ---- iteration, and decoded mappings ----

const MAPPINGS = [
  { generatedLine: 0, generatedColumn: 0, source: 'a.ts', originalLine: 0, originalColumn: 0, name: null, index: 0 },
  { generatedLine: 0, generatedColumn: 3, source: 'a.ts', originalLine: 0, originalColumn: 9, name: 'hi', index: 1 },
  { generatedLine: 0, generatedColumn: 8, source: null, originalLine: null, originalColumn: null, name: null, index: 2 },
  { generatedLine: 1, generatedColumn: 1, source: 'b.ts', originalLine: 1, originalColumn: 0, name: 'größe', index: 3 },
];

test('the mappings of a map, one by one', () => {
  const map = new SourceMap(TEXT);
  assert.deepEqual([...map], MAPPINGS);
  const all = [];
  assert.equal(map.eachMapping((...given) => all.push(given)), undefined);
  assert.deepEqual(all, MAPPINGS.map((it) => [it]));
  assert.deepEqual([...new SourceMap(simple(''))], []);
  const crossed = new SourceMap({ version: 3, sources: ['a', 'b'], names: ['x', 'y'], mappings: [[[0, 1, 0, 0, 0], [1, 0, 0, 0, 1], [2, 1, 0, 0]]] });
  assert.deepEqual(Array.from(crossed, (it) => [it.source, it.name]), [['b', 'x'], ['a', 'y'], ['b', null]]);
  const seen = [];
  for (const { source } of map) {
    map.setSources(['c', 'd']);
    seen.push(source);
  }
  assert.deepEqual(seen, ['a.ts', 'a.ts', null, 'b.ts']);
  const builder = new SourceMapBuilder();
  builder.addToken(0, 0, 1, 2, 7, 3);
  const unsound = builder.finish();
  assert.deepEqual([...unsound], [{ generatedLine: 0, generatedColumn: 0, source: null, originalLine: null, originalColumn: null, name: null, index: 0 }]);
  map.free();
  fails({ code: 'SMAP_NULL_HANDLE' }, () => map[Symbol.iterator]());
});

test('the mappings, as trace-mapping tells them', needs('@jridgewell/trace-mapping', tracing), () => {
  const theirs = [];
  tracing.eachMapping(new tracing.TraceMap({ ...MAP, sourceRoot: undefined }), (it) => theirs.push(it));
  const ours = [...new SourceMap(TEXT)].map(({ index, ...it }) => ({ ...it, generatedLine: it.generatedLine + 1, originalLine: it.originalLine === null ? null : it.originalLine + 1 }));
  assert.deepEqual(ours, theirs.map((it) => ({ ...it })));
});

test('decoded mappings', () => {
  const map = new SourceMap(TEXT);
  assert.deepEqual(map.decodedMappings, DECODED);
  assert.deepEqual([...SourceMap.fromMappings(DECODED).tokens()], [...flat(TOKENS)]);
  assert.deepEqual([...decodeMappings(DECODED)], [...flat(TOKENS)]);
  assert.equal(encodeMappings(DECODED), MAP.mappings);
  assert.equal(encodeMappings([[], [], []]), ';;');
  assert.equal(encodeMappings([[], [], []], { limit: 2 }), ';;');
  assert.equal(encodeMappings([[[1]], [], []], { limit: 3 }), 'C;;');
  for (const [given, limit] of [[[[], [], []], 1], [[[[1]], [], []], 2], [[[[1]], []], 1]]) fails({ code: 'SMAP_TOO_LARGE' }, () => encodeMappings(given, { limit }));
  assert.equal(SourceMap.fromMappings([]).mappings, '');
  assert.deepEqual(new SourceMap(simple('AAAA;;')).decodedMappings, [[[0, 0, 0, 0]]]);
  fails({ code: 'SMAP_BAD_NAME_REFERENCE' }, () => SourceMap.fromMappings(DECODED, { names: 1 }));
  fails({ code: 'SMAP_BAD_SOURCE_REFERENCE' }, () => SourceMap.fromMappings(DECODED, { sources: 1 }));
  assert.throws(() => encodeMappings([[[0, 0]]]), RangeError);
});

test('decoded mappings, as sourcemap-codec has them', needs('@jridgewell/sourcemap-codec', codec), () => {
  for (const mappings of ['', 'A', ';;A', 'AAEA,IAAIA;CAAD', 'gBCCCC,CDDDD', MAP.mappings]) {
    const map = SourceMap.fromMappings(mappings);
    assert.deepEqual(map.decodedMappings, mappings === '' ? [] : codec.decode(mappings));
    assert.equal(encodeMappings(codec.decode(mappings)), mappings);
  }
});

// ---- what is shown ----

test('a map shows its counts', () => {
  const map = new SourceMap(TEXT);
  assert.match(inspect(map), /^SourceMap \{\s+file: 'out\.js',\s+tokens: 4,\s+names: 2,\s+sources: 2,\s+sourcesContent: 2,\s+ignoreList: 1,\s+lines: 2,\s+bytes: \d+\s+\}$/);
  assert.match(inspect(new SourceMap(simple(''))), /^SourceMap \{\s+tokens: 0,/);
  assert.equal(inspect({ a: { b: { c: map } } }), '{ a: { b: { c: [SourceMap] } } }');
  map.free();
  assert.equal(inspect(map), 'SourceMap (freed)');
});

test('what the package runs on', () => {
  assert.equal(SourceMap.backend, isModule ? 'module' : 'addon');
});

test('the place of a fault stands in its message, once', () => {
  const told = (call) => {
    try {
      call();
    } catch ({ message, placeMessage }) {
      return { message, placeMessage };
    }
    return assert.fail('it is read');
  };
  const { message, placeMessage } = told(() => new SourceMap(simple('AAAA;A,AA')));
  assert.equal(message, 'Mapping segment had an unsupported size of 2, at line 1, segment 1 (byte 7)');
  assert.equal(placeMessage, 'line 1, segment 1 (byte 7)');
  assert.equal(told(() => new SourceMap(simple('D'))).message, 'Mapping segment had an unsupported size of 0, at line 0, segment 0 (byte 0): a column below 0');
  assert.deepEqual(told(() => new SourceMap(Buffer.from([0x7b, 0xc3]))), { message: 'Byte 1 is not UTF-8', placeMessage: '' });
});


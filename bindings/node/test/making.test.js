'use strict';
// Maps of lists, of calls, and of maps; and changes.

const test = require('node:test');
const assert = require('node:assert/strict');

const { NO_ID, SourceMap, SourceMapBuilder, ConcatSourceMapBuilder, evaluate, encodeMappings } = require('..');
const { MAP, TEXT, TOKENS, flat, simple, fails } = require('./support.js');

const BACK = [[1, 0, 0, 0, NO_ID, NO_ID], [0, 0, 0, 0, NO_ID, NO_ID]];
const A = '{"version":3,"sources":["a.js"],"mappings":"AAKG,I"}';
const B = '{"version":3,"sources":["b.js"],"mappings":"AAOC"}';
const AB = '{"version":3,"names":[],"sources":["a.js","b.js"],"mappings":"AAKG,I;ACEF"}';
const MINIFIED = '{"version":3,"names":["x"],"sources":["m.js"],"mappings":"AAAAA,GAASA"}';
const COMPILED = '{"version":3,"names":["y"],"sources":["o.ts"],"mappings":"AAIIA,QACC"}';
const COMPOSED = '{"version":3,"names":["y","x"],"sources":["o.ts"],"mappings":"AAIIA,GACCC"}';

const objects = TOKENS.map(([generatedLine, generatedColumn, originalLine, originalColumn, source, name]) => ({
  generatedLine,
  generatedColumn,
  originalLine,
  originalColumn,
  sourceId: source === NO_ID ? null : source,
  nameId: name === NO_ID ? undefined : name,
}));

test('whole lists', () => {
  for (const tokens of [flat(TOKENS), objects, objects.values()]) {
    const map = SourceMap.fromTokens(tokens, MAP);
    assert.equal(map.toString(), new SourceMap(TEXT).toString());
  }
  const bytes = (it) => it && Buffer.from(it);
  const lists = { names: MAP.names.map(bytes), sources: new Set(['a.ts', bytes('b.ts')]), sourcesContent: [bytes('let hi;'), null], ignoreList: Uint32Array.of(1) };
  const map = SourceMap.fromTokens(objects, { ...lists, file: bytes('out.js'), sourceRoot: 'src/', debugId: 'd-1' });
  assert.deepEqual(map.toJSON(), MAP);
  assert.equal(SourceMap.fromTokens([]).toString(), '{"version":3,"names":[],"sources":[],"mappings":""}');
  assert.deepEqual(SourceMap.fromTokens([], { sources: ['a', 'b'], sourcesContent: ['x'] }).sourcesContent, ['x']);
});

test('lists that do not fit', () => {
  const token = (source, name) => flat([[0, 0, 0, 0, source, name]]);
  fails({ code: 'SMAP_BAD_SOURCE_REFERENCE', detail: 1 }, () => SourceMap.fromTokens(token(1, NO_ID), { sources: ['a'] }));
  fails({ code: 'SMAP_BAD_NAME_REFERENCE', detail: 2 }, () => SourceMap.fromTokens(token(0, 2), { sources: ['a'], names: ['b'] }));
  fails({ code: 'SMAP_BAD_SOURCE_REFERENCE', detail: 3 }, () => SourceMap.fromTokens([], { ignoreList: [3] }));
  fails({ code: 'SMAP_NOT_UTF8', detail: 1 }, () => SourceMap.fromTokens([], { names: ['a', Uint8Array.of(0x61, 0xff)] }));
  fails({ code: 'SMAP_LENGTHS' }, () => SourceMap.fromTokens(new Uint32Array(7)));
});

test('a builder', () => {
  const builder = new SourceMapBuilder();
  builder.setFile('out.js');
  assert.deepEqual(['a.ts', 'b.ts', 'a.ts'].map((it) => builder.addSource(it, it.toUpperCase())), [0, 1, 0]);
  assert.deepEqual([builder.addSource('b.ts'), builder.addSource('c.ts'), builder.addSource(Buffer.from('c.ts'), 'late')], [1, 2, 2]);
  assert.deepEqual(['größe', 'hi', Buffer.from('hi')].map((it) => builder.addName(it)), [0, 1, 1]);
  builder.addToken(...TOKENS[0].slice(0, 5));
  builder.addToken(...TOKENS[1]);
  builder.addTokens(objects.slice(2, 3));
  builder.addTokens(flat(TOKENS).subarray(18));
  builder.addTokens([]);
  const map = builder.finish();
  assert.deepEqual([map.file, map.names, map.sources], ['out.js', ['größe', 'hi'], ['a.ts', 'b.ts', 'c.ts']]);
  assert.deepEqual([map.sourcesContent, [...map.tokens()]], [['A.TS', 'B.TS', null], TOKENS.flat()]);
  const next = builder.finish();
  assert.deepEqual([next.file, next.names, next.sources, next.counts.tokens], [null, [], [], 0]);
  assert.equal(builder.addSource('', ''), 0);
  assert.deepEqual(builder.finish().sourcesContent, ['']);
});

test('refusals of builders', () => {
  const builder = new SourceMapBuilder();
  builder.addTokens(flat([[0, 0, 0, 0, 5, 6]]));
  const map = builder.finish();
  assert.equal(map.isSound, false);
  fails({ code: 'SMAP_BAD_SOURCE_REFERENCE', detail: 0 }, () => new SourceMap(map.toString()));
  builder.addTokens(flat(BACK));
  fails({ code: 'SMAP_LINE_ORDER', detail: 1, message: 'Token 1 lies on a line before the token in front of it' }, () => builder.finish().toString());
  for (const call of [() => builder.addName(Uint8Array.of(255)), () => builder.addSource(Uint8Array.of(255)), () => builder.addSource('a', Uint8Array.of(255)), () => builder.setFile(Uint8Array.of(255))]) {
    fails({ code: 'SMAP_NOT_UTF8', detail: 0 }, call);
  }
  fails({ code: 'SMAP_LENGTHS' }, () => builder.addTokens(new Uint32Array(5)));
  assert.equal(builder.finish().toString(), '{"version":3,"names":[],"sources":[],"mappings":""}');
});

test('joins, at once and map by map', () => {
  const maps = [A, B].map((it) => new SourceMap(it));
  const join = new ConcatSourceMapBuilder();
  maps.forEach((map, line) => join.addSourceMap(map, line));
  assert.equal(SourceMap.join(maps.map((map, line) => ({ map, line }))).toString(), AB);
  assert.equal(maps[0].toString(), new SourceMap(A).toString());
  maps[0].free();
  assert.equal(join.finish().toString(), AB);
  assert.deepEqual(join.finish().sources, []);
  join.addSourceMap(maps[1], 7, 2);
  assert.deepEqual([...join.finish().tokens()].slice(0, 2), [7, 2]);
  assert.deepEqual([...SourceMap.join([{ map: maps[1], line: 7, column: 2 }]).tokens()].slice(0, 2), [7, 2]);
  assert.deepEqual(SourceMap.join([]).sources, []);
  const last = SourceMap.fromTokens(flat([[NO_ID, 0, 0, 0, NO_ID, NO_ID]]));
  fails({ code: 'SMAP_TOO_LARGE' }, () => SourceMap.join([{ map: last, line: 1 }]));
  fails({ code: 'SMAP_TOO_LARGE' }, () => join.addSourceMap(last, 1));
  fails({ code: 'SMAP_NULL_HANDLE' }, () => SourceMap.join([{ map: maps[0], line: 0 }]));
  fails({ code: 'SMAP_NULL_HANDLE' }, () => join.addSourceMap(maps[0], 0));
});

test('a composition leaves its maps as they were', () => {
  const [minified, compiled] = [MINIFIED, COMPILED].map((it) => new SourceMap(it));
  assert.equal(minified.compose(compiled).toString(), COMPOSED);
  assert.deepEqual([minified.toString(), compiled.toString()], [MINIFIED, COMPILED]);
  assert.equal(minified.compose(minified).sources[0], 'm.js');
  const several = SourceMap.fromTokens([], { sources: ['a', 'b'] });
  fails({ code: 'SMAP_SEVERAL_SOURCES', detail: 2, message: 'Cannot compose a transformation map with 2 sources' }, () => several.compose(compiled));
  fails({ code: 'SMAP_LINE_ORDER', detail: 1 }, () => SourceMap.fromTokens([]).compose(SourceMap.fromTokens(flat(BACK))));
});

test('a map is led through those of its sources', () => {
  const bundle = new SourceMap(simple('AAAA,GAASA,GCAA', { names: ['x'], sources: ['m.js', 'n.js'] }));
  const compiled = new SourceMap(COMPILED);
  const inputs = [{ 'm.js': compiled }, new Map([['m.js', compiled]]), [[Buffer.from('m.js'), compiled], ['m.js', new SourceMap(A)]]];
  for (const input of inputs) {
    const map = bundle.remap(input);
    assert.deepEqual(map.sources, ['o.ts', 'n.js']);
    assert.deepEqual(map.trace(0, 4), { source: 'o.ts', line: 5, column: 5, name: 'x', index: 1 });
    assert.deepEqual(map.trace(0, 6).source, 'n.js');
  }
  assert.deepEqual(bundle.remap({}).sources, ['m.js', 'n.js']);
  fails({ code: 'SMAP_INPUT_LINE_ORDER', detail: 1 }, () => bundle.remap([['m.js', compiled], ['n.js', SourceMap.fromTokens(flat(BACK))]]));
  fails({ code: 'SMAP_NOT_UTF8' }, () => bundle.remap([[Uint8Array.of(255), compiled]]));
});

test('plans', () => {
  assert.equal(evaluate('compose @0 @1', [MINIFIED, COMPILED]).toString(), COMPOSED);
  assert.equal(evaluate(['join', '2', '@0', '0', Buffer.from('@1'), '1'], [A, Buffer.from(B)]).toString(), AB);
  assert.equal(evaluate('  rewrite\n join 2 @0 0\tjoin 1 @1 1 0 ', [A, B]).toString(), AB);
  assert.deepEqual(evaluate('remap @0 1 größe.js @1', [simple('AAAA', { sources: ['größe.js'] }), COMPILED]).sources, ['o.ts']);
  fails({ code: 'SMAP_WORDS' }, () => evaluate('join 1 @0', [A]));
  fails({ code: 'SMAP_NO_TEXT', detail: 1 }, () => evaluate('@1', [A]));
  fails({ code: 'SMAP_TOO_DEEP' }, () => evaluate(`${'rewrite '.repeat(65)}@0`, [A]));
  fails({ code: 'SMAP_UNSORTED' }, () => evaluate('compose @0 @0', [simple('G,D')]));
  fails({ code: 'SMAP_BAD_SEGMENT_SIZE', placeMessage: 'text 1, line 0, segment 0 (byte 0)' }, () => evaluate('join 2 @0 0 @1 1', [A, simple('AA')]));
});

test('changes', () => {
  const map = new SourceMap(simple('AAAA', { sources: ['a', 'b'] }));
  map.setFile('größe.js');
  map.setSourceRoot(Buffer.from('root'));
  map.setDebugId('7f');
  map.setIgnoreList([1, 0]);
  map.setSourcesContent([null, 'let b;', Buffer.from('more')]);
  assert.deepEqual([map.file, map.sourceRoot, map.debugId, map.ignoreList], ['größe.js', 'root', '7f', [1, 0]]);
  assert.deepEqual(map.sourcesContent, [null, 'let b;', 'more']);
  map.setIgnoreList([]);
  assert.deepEqual(map.ignoreList, []);
  for (const call of ['setFile', 'setSourceRoot', 'setDebugId']) fails({ code: 'SMAP_NOT_UTF8', detail: 1 }, () => map[call](Uint8Array.of(0x61, 255)));
  fails({ code: 'SMAP_NOT_UTF8' }, () => map.setSources([Uint8Array.of(255)]));
  assert.deepEqual([map.file, map.sources], ['größe.js', ['a', 'b']]);
});

test('sorting and simplifying', () => {
  const map = SourceMap.fromTokens(flat(BACK));
  assert.deepEqual([map.isSorted, map.isSound], [false, false]);
  fails({ code: 'SMAP_UNSORTED' }, () => map.simplify());
  map.sort();
  assert.deepEqual([[...map.tokens()].filter((_, i) => i % 6 === 0), map.isSorted], [[0, 1], true]);
  const more = SourceMap.fromTokens(flat([[0, 0, 2, 0, 0, NO_ID], [0, 4, 2, 0, 0, NO_ID]]), { sources: ['a', 'b'] });
  more.simplify();
  assert.deepEqual([more.counts.tokens, more.sources], [1, ['a']]);
});

test('a clone is a map of its own', () => {
  const map = new SourceMap(TEXT);
  const copy = map.clone();
  copy.setFile('other.js');
  map.free();
  assert.deepEqual(copy.toJSON(), { ...MAP, file: 'other.js' });
});

test('what was freed', () => {
  const map = new SourceMap(TEXT);
  assert.deepEqual([map.names, map.sources, map.trace(0, 4).name], [MAP.names, MAP.sources, 'hi']);
  map.free();
  map.free();
  for (const name of ['counts', 'isSorted', 'isSound', 'names', 'sources', 'sourcesContent', 'file', 'sourceRoot', 'debugId', 'ignoreList', 'mappings']) {
    fails({ code: 'SMAP_NULL_HANDLE' }, () => map[name]);
  }
  const calls = {
    trace: [0, 0],
    traceToken: [0, 0],
    findAll: [new Uint32Array(2)],
    traceAll: [new Uint32Array(2)],
    pieces: [{ line: 0, column: 0 }, { line: 1, column: 0 }],
    firstDifference: [map],
    indexSources: [],
    generated: [0, 0, 0],
    allGenerated: [0, 0, 0],
    getName: [0],
    getSource: [0],
    getSourceContent: [0],
    token: [0],
    tokens: [],
    setFile: ['a'],
    setSourceRoot: ['a'],
    setDebugId: ['a'],
    setSources: [[]],
    setSourcesContent: [[]],
    setIgnoreList: [[]],
    applySourceRoot: [],
    sort: [],
    simplify: [],
    clone: [],
    share: [],
    compose: [map],
    remap: [{}],
    toString: [],
    toBytes: [],
    toJSON: [],
    toDataURL: [],
    compile: [],
    visualize: [''],
    visualizerURL: [''],
    eachMapping: [() => {}],
  };
  for (const [name, given] of Object.entries(calls)) fails({ code: 'SMAP_NULL_HANDLE', message: 'It was freed, or its buffer was transferred' }, () => map[name](...given));
  const methods = Object.getOwnPropertyNames(SourceMap.prototype).filter((it) => typeof Object.getOwnPropertyDescriptor(SourceMap.prototype, it).value === 'function');
  assert.deepEqual(methods.filter((it) => !Object.hasOwn(calls, it)).sort(), ['constructor', 'free']);
  for (const it of [new SourceMapBuilder(), new ConcatSourceMapBuilder()]) {
    it.free();
    it.free();
    fails({ code: 'SMAP_NULL_HANDLE' }, () => it.finish());
  }
  const builder = new SourceMapBuilder();
  builder.free();
  for (const call of [() => builder.addName('a'), () => builder.addSource('a'), () => builder.addToken(0, 0, 0, 0), () => builder.setFile('a')]) fails({ code: 'SMAP_NULL_HANDLE' }, call);
});

test('the end of a `using`', () => {
  for (const it of [new SourceMap(TEXT), new SourceMapBuilder(), new ConcatSourceMapBuilder()]) {
    it[Symbol.dispose]();
    fails({ code: 'SMAP_NULL_HANDLE' }, () => (it instanceof SourceMap ? it.toString() : it.finish()));
  }
});

test('mappings of tokens', () => {
  assert.equal(encodeMappings(flat(TOKENS)), MAP.mappings);
  assert.equal(encodeMappings(objects), MAP.mappings);
  assert.equal(encodeMappings([]), '');
  assert.equal(encodeMappings(flat([[0, NO_ID, NO_ID, NO_ID, 0, NO_ID], [1, 0, 0, 0, 0, NO_ID]])), '+/////HA+/////H+/////H;AA//////H//////H');
  fails({ code: 'SMAP_LINE_ORDER', detail: 1 }, () => encodeMappings(flat(BACK)));
  fails({ code: 'SMAP_LENGTHS' }, () => encodeMappings(new Uint32Array(5)));
  const far = flat([[4294967295, 0, 0, 0, 0, NO_ID]]);
  assert.equal(encodeMappings(flat(TOKENS), { limit: MAP.mappings.length }), MAP.mappings);
  fails({ code: 'SMAP_TOO_LARGE' }, () => encodeMappings(flat(TOKENS), { limit: MAP.mappings.length - 1 }));
  fails({ code: 'SMAP_TOO_LARGE' }, () => encodeMappings(far, { limit: 1000 }));
  assert.throws(() => encodeMappings([], { limit: -1 }), RangeError);
});

'use strict';
// The module remapping: values worked by hand, the library, and the package where it is installed.

const test = require('node:test');
const assert = require('node:assert/strict');

const { SourceMap, NO_ID } = require('..');
const remapping = require('../compat/remapping.js');
const { TraceMap, decodedMap } = require('../compat/trace-mapping.js');
const { mappingsOf, random, randomMap, peer, needs, realMaps } = require('./support.js');

const theirs = peer('@ampproject/remapping');

const map = (mappings, sources, more = {}) => ({ version: 3, names: [], sources, mappings, ...more });

// A bundle of two modules. The first has a map: its line 0 comes from one.ts, but of its line 1 that map says nothing.
const BUNDLE = map([[[0, 0, 0, 0], [5, 0, 1, 0], [9, 1, 3, 2]], [[0], [2, 0, 0, 7, 0]]], ['one.js', 'two.js'], {
  file: 'bundle.js',
  names: ['outer'],
  sourcesContent: ['1', '2'],
});
const ONE = map([[[0, 0, 10, 0, 0], [6], [7, 0, 11, 4]]], ['one.ts'], { names: ['inner'], sourcesContent: ['let one;'] });
const load = (file) => (file === 'one.js' ? ONE : null);

test('a map is led through the map of one of its sources', () => {
  const result = remapping(BUNDLE, load, { decodedMappings: true });
  assert.deepEqual({ ...result }, {
    version: 3,
    file: 'bundle.js',
    mappings: [[[0, 0, 10, 0, 0], [9, 1, 3, 2]], [[2, 0, 11, 4, 1]]],
    names: ['inner', 'outer'],
    sourceRoot: undefined,
    sources: ['one.ts', 'two.js'],
    sourcesContent: ['let one;', '2'],
  });
  const keys = ['version', 'file', 'mappings', 'names', 'sourceRoot', 'sources', 'sourcesContent'];
  assert.deepEqual(Object.keys(result), keys);
  const encoded = remapping(BUNDLE, load);
  assert.equal(encoded.mappings, 'AAUAA,SCPE;EDQEC');
  assert.equal(encoded.toString(), JSON.stringify(encoded));
  assert.equal(String(encoded), encoded.toString());
});

test('with `exact` each mapping stays', () => {
  const result = remapping(BUNDLE, load, { decodedMappings: true, exact: true });
  assert.deepEqual({ ...result }, {
    version: 3,
    file: 'bundle.js',
    mappings: [[[0, 0, 10, 0, 0], [5], [9, 1, 3, 2]], [[0], [2, 0, 11, 4, 1]]],
    names: ['inner', 'outer'],
    sourceRoot: undefined,
    sources: ['one.ts', 'two.js'],
    sourcesContent: ['let one;', '2'],
  });
});

test('with `exact` no name is lost', () => {
  const over = map([[[0, 0, 0, 0], [4, 0, 0, 0, 0]]], ['a.js'], { names: ['n'] });
  const none = () => null;
  assert.deepEqual(remapping(over, none, { decodedMappings: true }).mappings, [[[0, 0, 0, 0]]]);
  assert.deepEqual(remapping(over, none, { decodedMappings: true, exact: true }).mappings, over.mappings);
});

test('options', () => {
  assert.ok(!('sourcesContent' in remapping(BUNDLE, load, true)));
  assert.ok(!('sourcesContent' in remapping(BUNDLE, load, { excludeContent: true })));
  assert.ok(!('sourcesContent' in remapping(BUNDLE, load, { excludeContent: true, exact: true })));
  assert.ok('sourcesContent' in remapping(BUNDLE, load, false));
  assert.equal(remapping.default, remapping);
});

test('a loader is told of each source, and may change what it is told', () => {
  const told = [];
  const input = map('AAAA,CCAA', ['a.js', '../b.js'], { sourceRoot: 'root', sourcesContent: ['A', 'B'] });
  const result = remapping(JSON.stringify(input), (file, context) => {
    told.push([file, { ...context }]);
    if (file === 'root/a.js') {
      context.source = 'other/a.js';
      return map('AAAA,CCAA', ['c.ts', 'd.ts'], { sourcesContent: ['C', 'D'] });
    }
    if (file === 'other/c.ts') context.content = null;
    if (file === 'b.js') Object.assign(context, { source: 'renamed.js', content: 'new' });
    return undefined;
  });
  const context = (importer, depth, source) => ({ importer, depth, source, content: undefined });
  assert.deepEqual(told, [
    ['root/a.js', context('', 1, 'root/a.js')],
    ['other/c.ts', context('other/a.js', 2, 'other/c.ts')],
    ['other/d.ts', context('other/a.js', 2, 'other/d.ts')],
    ['b.js', context('', 1, 'b.js')],
  ]);
  assert.deepEqual([result.sources, result.sourcesContent], [['other/c.ts', 'renamed.js'], [null, 'new']]);
});

test('several maps, the last step first', () => {
  const last = map('AAAA,EAAC', ['step.js']);
  const step = map('AAAA,CCEE', ['x.ts', 'y.ts'], { names: [] });
  const result = remapping([last, step], () => null, { decodedMappings: true });
  assert.deepEqual(result.mappings, [[[0, 0, 0, 0], [2, 1, 2, 2]]]);
  assert.deepEqual(result.sources, ['x.ts', 'y.ts']);
  const exact = remapping([last, step], () => null, { decodedMappings: true, exact: true });
  assert.deepEqual(exact.mappings, result.mappings);
  const message =
    'Transformation map 1 must have exactly one source file.\n' +
    'Did you specify these with the most recent transformation maps first?';
  assert.throws(() => remapping([last, step, last], () => null), { name: 'Error', message });
});

test('sources without a path', () => {
  const input = map('AAAA,CCAA', [null, 'b.js'], { sourcesContent: ['A', 'B'] });
  const result = remapping(input, () => null, { decodedMappings: true });
  assert.deepEqual(result.mappings, [[[0], [1, 1, 0, 0]]]);
  assert.deepEqual([result.sources, result.sourcesContent], [['', 'b.js'], ['A', 'B']]);
});

test('of leaves with one path the content of the last that is needed counts', () => {
  const input = map([[[0, 0, 0, 0], [1, 1, 0, 1], [2, 2, 0, 1]]], ['a.js', './a.js', 'a.js'], { sourcesContent: ['1', '2', '3'] });
  const load = (file, context) => {
    context.source = 'a.js';
  };
  const result = remapping(input, load, { decodedMappings: true });
  assert.deepEqual(result.mappings, [[[0, 0, 0, 0], [1, 0, 0, 1]]]);
  assert.deepEqual([result.sources, result.sourcesContent], [['a.js'], ['2']]);
});

test('places that follow each other on a line, in any order', () => {
  const line = Array.from({ length: 30 }, (_, i) => [2 * i, 0, i, 0]);
  line.splice(5, 0, [10, 0, 40, 0], [10, 0, 50, 0]); // three at column 10: lines 40, 50, and 5
  const found = (column) => (column === 10 ? 40 : Math.min(29, Math.floor(column / 2)));
  const columns = [0, 1, 2, 4, 5, 9, 10, 11, 10, 12, 11, 30, 31, 58, 99, 59, 40, 41, 57, 58, 57, 3, 20, 10, 9, 8, 7];
  const last = map([columns.map((column, i) => [i, 0, 0, column])], ['step.js']);
  const next = [[1, 0, 98, 0], [200, 0, 99, 0]];
  const { mappings } = remapping([last, map([line, next], ['x.ts'])], () => null, { decodedMappings: true });
  const expected = columns.map((column, i) => [i, 0, found(column), 0]);
  assert.deepEqual(mappings[0], expected.filter(([, , to], i) => i === 0 || to !== expected[i - 1][2]));
});

test('a map that no mapping leads to is not read', () => {
  const bad = map('AA', ['x']);
  const input = map('AAAA', ['a.js', 'b.js']);
  const result = remapping(input, (file) => (file === 'b.js' ? bad : null));
  assert.deepEqual([result.mappings, result.sources], ['AAAA', ['a.js']]);
});

test('ignored sources', () => {
  const input = map('AAAA,CCAA,CCAA', ['a.js', 'b.js', 'c.js'], { ignoreList: [0, 1] });
  const loader = (file, context) => {
    if (file === 'b.js') context.ignore = false;
    if (file === 'c.js') context.ignore = true;
  };
  for (const exact of [false, true]) {
    const result = remapping(input, loader, { exact });
    assert.deepEqual(result.ignoreList, [0, 2]);
    assert.equal(Object.keys(result)[4], 'ignoreList');
  }
});

test('what is no map, and half a surrogate pair', () => {
  assert.throws(() => remapping('{', () => null), SyntaxError);
  assert.throws(() => remapping(map('AA', ['a']), () => null), { code: 'SMAP_BAD_SEGMENT_SIZE' });
  const half = map('AAAA', ['\ud800'], { sourcesContent: ['\udc00'] });
  assert.deepEqual(remapping(half, () => null).sourcesContent, ['\udc00']);
  assert.throws(() => remapping(half, () => null, { exact: true }), TypeError);
});

// ---- beside the library ----

/** A random map whose places are those that a random map of this kind has. */
function over(seed) {
  const { tokens, json } = randomMap(seed);
  const near = tokens.map(([line, column, originalLine, originalColumn, ...ids]) => [line, column, originalLine % 6, originalColumn, ...ids]);
  return { ...json, mappings: mappingsOf(near) };
}

/** Random maps for some of the sources of a map, and for some of theirs. Two maps may have the same source. */
function loaderFor(seed) {
  const next = random(seed);
  const maps = new Map();
  return (file, { depth }) => {
    if (maps.has(file)) return depth < 3 ? maps.get(file) : null;
    const own = next(3) > 0 ? over(seed + 100 * maps.size) : null;
    if (own) own.sources = own.sources.map((source) => `${next(4) === 0 ? 'shared' : depth}-${source}`);
    maps.set(file, own);
    return depth < 3 ? own : null;
  };
}

test('with `exact` it is the map of the library', () => {
  for (let seed = 1; seed <= 100; seed++) {
    const root = over(seed);
    const maps = root.sources.map((_, i) => (i % 2 === 0 ? over(seed + 500 + i) : null));
    const result = remapping(root, (file, { depth }) => (depth === 1 ? maps[root.sources.indexOf(file)] : null), { exact: true });
    const inputs = root.sources.flatMap((file, i) => (maps[i] ? [[file, new SourceMap(JSON.stringify(maps[i]))]] : []));
    const expected = new SourceMap(JSON.stringify(root)).remap(inputs);
    assert.equal(result.mappings, expected.mappings);
    assert.deepEqual([result.names, result.sources, result.sourcesContent], [expected.names, expected.sources, expected.sourcesContent]);
  }
});

test('with `exact` maps of maps, and steps, are those of the library', () => {
  const named = (seed, prefix) => ({ ...over(seed), sources: over(seed).sources.map((source) => prefix + source) });
  const library = (value) => new SourceMap(JSON.stringify(value));
  for (let seed = 1; seed <= 100; seed++) {
    const [root, child, last] = [named(seed, 'a-'), named(seed + 700, 'b-'), named(seed + 900, 'c-')];
    const maps = { 'a-s0.js': child, 'b-s0.js': last };
    const inner = library(child).remap({ 'b-s0.js': library(last) });
    const expected = library(root).remap({ 'a-s0.js': inner });
    const result = remapping(root, (file) => maps[file], { exact: true });
    assert.equal(library(result).firstDifference(expected), null);
    assert.equal(result.mappings, expected.mappings);
    const step = { ...root, sources: ['step.js'], mappings: onlyFirst(root.mappings) };
    const steps = remapping([step, child], () => null, { exact: true });
    assert.equal(library(steps).firstDifference(library(step).compose(library(child))), null);
  }
});

// ---- beside the package ----

const OPTIONS = [undefined, true, { decodedMappings: true }, { excludeContent: true, decodedMappings: true }];

function compare(input, loader, options) {
  const [a, b] = [remapping(input, loader, options), theirs(input, loader, options)];
  assert.equal(a.toString(), b.toString());
  assert.deepEqual({ ...a }, { ...b });
}

test('random trees beside the package', needs('@ampproject/remapping', theirs), () => {
  for (let seed = 1; seed <= 200; seed++) {
    const next = random(seed);
    const root = { ...over(seed), sourceRoot: [undefined, 'r'][next(2)] };
    const options = OPTIONS[next(OPTIONS.length)];
    compare(JSON.stringify(root), loaderFor(seed), options);
    const steps = [over(3 * seed), over(5 * seed)].map((step) => ({ ...step, sources: ['step.js'], mappings: onlyFirst(step.mappings) }));
    compare([...steps, decodedMap(new TraceMap(root))], loaderFor(seed), options);
  }
});

/** Mappings with all sources made the first one. */
function onlyFirst(mappings) {
  const tokens = SourceMap.fromMappings(mappings).tokens();
  for (let at = 4; at < tokens.length; at += 6) if (tokens[at] !== NO_ID) tokens[at] = 0;
  return SourceMap.fromTokens(tokens, { names: new Array(9).fill(''), sources: [''] }).mappings;
}

test('real maps beside the package', needs('@ampproject/remapping', theirs), () => {
  const values = realMaps().filter(({ refused }) => !refused).map(({ path, bytes }) => ({ path, ...JSON.parse(bytes) }));
  const single = values.filter(({ sections }) => !sections).map(({ ignoreList, x_google_ignoreList, ...value }) => value);
  for (const { path, ...value } of single) {
    for (const { path: other, ...input } of single) compare(value, (file, { depth }) => (depth === 1 ? input : null), undefined);
  }
});

'use strict';
// The module gen-mapping: values worked by hand, and the package where it is installed.

const test = require('node:test');
const assert = require('node:assert/strict');

const ours = require('../compat/gen-mapping.js');
const { MAP, TEXT, random, randomMap, peer, needs, realMaps } = require('./support.js');

const theirs = peer('@jridgewell/gen-mapping');
const { GenMapping, addSegment, addMapping, maybeAddSegment, maybeAddMapping, toDecodedMap, toEncodedMap, allMappings } = ours;

const EMPTY = {
  version: 3,
  file: undefined,
  names: [],
  sourceRoot: undefined,
  sources: [],
  sourcesContent: [],
  mappings: [],
};

const decoded = (map) => toDecodedMap(map).mappings;

test('a map with nothing in it', () => {
  assert.deepEqual(toDecodedMap(new GenMapping()), EMPTY);
  assert.deepEqual(toEncodedMap(new GenMapping({})), { ...EMPTY, mappings: '' });
  assert.deepEqual(Object.keys(toEncodedMap(new GenMapping())), Object.keys(EMPTY));
  assert.deepEqual(allMappings(new GenMapping()), []);
});

test('file and source root', () => {
  const map = new GenMapping({ file: 'f.js', sourceRoot: 'r' });
  assert.deepEqual([map.file, map.sourceRoot], ['f.js', 'r']);
  assert.deepEqual(toDecodedMap(map), { ...EMPTY, file: 'f.js', sourceRoot: 'r' });
  map.file = null;
  assert.equal(toDecodedMap(map).file, undefined);
});

test('segments and mappings', () => {
  const map = new GenMapping();
  addSegment(map, 0, 4, 'a.ts', 2, 0, 'f', 'content');
  addMapping(map, { generated: { line: 1, column: 6 } });
  addMapping(map, { generated: { line: 3, column: 0 }, source: 'b.ts', original: { line: 1, column: 5 } });
  addSegment(map, 2, 7, 'a.ts', 0, 1, '', 'other');
  assert.deepEqual(toDecodedMap(map), {
    ...EMPTY,
    names: ['f'],
    sources: ['a.ts', 'b.ts'],
    sourcesContent: ['content', null],
    mappings: [[[4, 0, 2, 0, 0], [6]], [], [[0, 1, 0, 5], [7, 0, 0, 1]]],
  });
  assert.equal(toEncodedMap(map).mappings, 'IAEAA,E;;ACFK,ODAJ');
  assert.deepEqual(allMappings(map), [
    { generated: { line: 1, column: 4 }, source: 'a.ts', original: { line: 3, column: 0 }, name: 'f' },
    { generated: { line: 1, column: 6 }, source: undefined, original: undefined, name: undefined },
    { generated: { line: 3, column: 0 }, source: 'b.ts', original: { line: 1, column: 5 }, name: undefined },
    { generated: { line: 3, column: 7 }, source: 'a.ts', original: { line: 1, column: 1 }, name: undefined },
  ]);
});

test('mappings that come in any order are sorted, equal ones as they came', () => {
  const map = new GenMapping();
  addSegment(map, 1, 0, 'a', 0, 1);
  addSegment(map, 0, 5, 'a', 0, 2);
  addSegment(map, 0, 5, 'a', 0, 3);
  addSegment(map, 0, 0, 'a', 0, 4);
  assert.deepEqual(decoded(map), [[[0, 0, 0, 4], [5, 0, 0, 2], [5, 0, 0, 3]], [[0, 0, 0, 1]]]);
  addSegment(map, 0, 5, 'a', 0, 5);
  addSegment(map, 1, 0, 'a', 0, 6);
  const lines = [[[0, 0, 0, 4], [5, 0, 0, 2], [5, 0, 0, 3], [5, 0, 0, 5]], [[0, 0, 0, 1], [0, 0, 0, 6]]];
  assert.deepEqual(decoded(map), lines);
});

test('mappings that say nothing new are not added', () => {
  const map = new GenMapping();
  maybeAddSegment(map, 0, 0);
  assert.deepEqual(decoded(map), []);
  maybeAddSegment(map, 0, 1, 'a', 0, 0);
  maybeAddSegment(map, 0, 2, 'a', 0, 0);
  maybeAddSegment(map, 0, 3, 'a', 0, 0, 'n');
  maybeAddSegment(map, 0, 4, 'a', 0, 0, 'n');
  maybeAddSegment(map, 0, 5, 'b', 0, 0, 'n');
  maybeAddSegment(map, 0, 6, 'b', 1, 0, 'n');
  maybeAddSegment(map, 0, 7, 'b', 1, 1, 'n');
  maybeAddSegment(map, 0, 8);
  maybeAddSegment(map, 0, 9);
  maybeAddMapping(map, { generated: { line: 1, column: 10 }, source: 'b', original: { line: 2, column: 1 }, name: 'n' });
  maybeAddMapping(map, { generated: { line: 2, column: 0 }, source: 'b', original: { line: 2, column: 1 }, name: 'n' });
  const first = [[1, 0, 0, 0], [3, 0, 0, 0, 0], [5, 1, 0, 0, 0], [6, 1, 1, 0, 0], [7, 1, 1, 1, 0], [8], [10, 1, 1, 1, 0]];
  assert.deepEqual(decoded(map), [first, [[0, 1, 1, 1, 0]]]);
});

test('a mapping that may be left out is compared with the one before its place', () => {
  const map = new GenMapping();
  addSegment(map, 0, 9, 'a', 5, 0);
  addSegment(map, 0, 2, 'a', 1, 0);
  maybeAddSegment(map, 0, 4, 'a', 1, 0);
  maybeAddSegment(map, 0, 5, 'a', 5, 0);
  maybeAddSegment(map, 0, 1);
  assert.deepEqual(decoded(map), [[[2, 0, 1, 0], [5, 0, 5, 0], [9, 0, 5, 0]]]);
  maybeAddSegment(map, 0, 5, 'a', 7, 0);
  assert.deepEqual(decoded(map), [[[2, 0, 1, 0], [5, 0, 5, 0], [5, 0, 7, 0], [9, 0, 5, 0]]]);
});

test('contents and ignored sources', () => {
  const map = new GenMapping();
  ours.setSourceContent(map, 'a', 'A');
  addSegment(map, 0, 0, 'b', 0, 0, null, 'B');
  ours.setSourceContent(map, 'b', null);
  ours.setIgnore(map, 'c');
  ours.setIgnore(map, 'a');
  ours.setIgnore(map, 'a', false);
  const { sources, sourcesContent, ignoreList } = toEncodedMap(map);
  assert.deepEqual({ sources, sourcesContent, ignoreList }, {
    sources: ['a', 'b', 'c'],
    sourcesContent: ['A', null, null],
    ignoreList: [2],
  });
});

test('a number that is none is refused as it was given, and the map stays', () => {
  const map = new GenMapping();
  addSegment(map, 0, 0, 'a', 0, 0, 'n');
  const before = toEncodedMap(map);
  const says = (what, given, from = 0) => ({ name: 'RangeError', message: `The ${what} is ${given}, and not an integer from ${from} to ${4294967295 + from}` });
  for (const call of [addSegment, maybeAddSegment]) {
    assert.throws(() => call(map, -1, 0), says('generated line', '-1'));
    assert.throws(() => call(map, '1', 0), says('generated line', '"1"'));
    assert.throws(() => call(map, 0, '1'), says('generated column', '"1"'));
    assert.throws(() => call(map, 0, 1.5, 'b', 0, 0), says('generated column', '1.5'));
    assert.throws(() => call(map, 0, 0, 'b', -1, 0, 'm'), says('original line', '-1'));
    assert.throws(() => call(map, 0, 0, 'b', 0, undefined), says('original column', 'undefined'));
  }
  const place = { line: 1, column: 0 };
  for (const call of [addMapping, maybeAddMapping]) {
    for (const line of [0, 1.5, undefined]) {
      assert.throws(() => call(map, { generated: { line, column: 0 } }), says('generated line', line, 1));
      assert.throws(() => call(map, { generated: place, source: 'b', original: { line, column: 0 } }), says('original line', line, 1));
    }
    assert.throws(() => call(map, { generated: place, source: 'b', original: { line: 1, column: null } }), says('original column', 'null'));
  }
  assert.deepEqual(toEncodedMap(map), before);
});

test('the two names that versions 0.1 and 0.2 have for the values of a map', () => {
  assert.deepEqual([ours.decodedMap, ours.encodedMap], [toDecodedMap, toEncodedMap]);
});

test('a map from another one', () => {
  const { debugId, ...rest } = MAP;
  const map = ours.fromMap(TEXT);
  assert.deepEqual(toEncodedMap(map), rest);
  addSegment(map, 1, 9, 'a.ts', 0, 0, 'hi');
  assert.equal(toEncodedMap(map).mappings, 'AAAA,GAASA,K;CCCTC,QDDAD');
  const input = { version: 3, names: ['x', 'x'], sources: ['a', 'b', 'a'], sourcesContent: ['A'], mappings: [[[0, 2, 0, 0, 1]]] };
  const copy = structuredClone(input);
  const again = ours.fromMap(input);
  ours.setSourceContent(again, 'b', 'B');
  addSegment(again, 0, 5);
  assert.deepEqual(input, copy);
  assert.deepEqual(toDecodedMap(again), {
    ...EMPTY,
    names: ['x'],
    sources: ['a', 'b'],
    sourcesContent: ['A', 'B'],
    mappings: [[[0, 0, 0, 0, 0], [5]]],
  });
});

test('lists that are given stay as they are', () => {
  const map = new GenMapping();
  addSegment(map, 0, 0, 'a', 0, 0);
  toDecodedMap(map).sources.push('b');
  assert.deepEqual(toDecodedMap(map).sources, ['a']);
});

// ---- beside the package ----

const FUNCTIONS = ['addSegment', 'maybeAddSegment', 'addMapping', 'maybeAddMapping', 'setSourceContent'];

/** A random call, as its name and its arguments behind the map. Lines and columns go back now and then. */
function randomCall(next, last) {
  const name = FUNCTIONS[next(next(9) === 0 ? 5 : 4)];
  const source = ['a', 'b', 'c', '', null][next(5)];
  if (name === 'setSourceContent') return [name, ['a', 'd'][next(2)], ['A', null][next(2)]];
  last.column += next(3);
  if (next(5) === 0) [last.line, last.column] = [last.line + 1, next(4)];
  const line = next(6) === 0 ? next(last.line + 1) : last.line;
  const original = [next(3), next(3)];
  const [label, content] = [['x', 'y', '', null][next(4)], ['C', null, undefined][next(3)]];
  if (name.endsWith('Segment')) return [name, line, last.column, source, ...original, label, content];
  const generated = { line: line + 1, column: last.column };
  return [name, { generated, source, original: { line: original[0] + 1, column: original[1] }, name: label, content }];
}

/** What a map gives in the end. The package keeps original positions that no source is for, which stand nowhere. */
function results(api, map) {
  return [api.toDecodedMap(map), api.toEncodedMap(map), api.allMappings(map)];
}

test('random calls beside the package', needs('@jridgewell/gen-mapping', theirs), () => {
  for (let seed = 1; seed <= 200; seed++) {
    const next = random(seed);
    const [a, b] = [new GenMapping({ file: 'f' }), new theirs.GenMapping({ file: 'f' })];
    const last = { line: 0, column: 0 };
    for (let count = next(80); count > 0; count--) {
      const [name, ...args] = randomCall(next, last);
      ours[name](a, ...args);
      theirs[name](b, ...args);
      if (next(20) === 0) assert.deepEqual(results(ours, a), results(theirs, b));
    }
    assert.deepEqual(results(ours, a), results(theirs, b), `seed ${seed}`);
  }
});

test('maps from others beside the package', needs('@jridgewell/gen-mapping', theirs), () => {
  const values = realMaps().filter(({ refused }) => !refused).map(({ bytes }) => JSON.parse(bytes));
  for (let seed = 1; seed <= 100; seed++) values.push(randomMap(seed).json);
  for (const { ignoreList, ...value } of values.filter(({ sections }) => !sections)) {
    if (new Set(value.names).size !== value.names.length) continue;
    assert.deepEqual(results(ours, ours.fromMap(value)), results(theirs, theirs.fromMap(structuredClone(value))));
  }
});

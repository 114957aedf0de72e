'use strict';
// Lookups that leave JavaScript for nothing, of a map that was asked often: their answers are those of the library.

const test = require('node:test');
const assert = require('node:assert/strict');

const { NO_ID, Bias, SourceMap, SourceMapBuilder, Direction } = require('..');
const { Columns } = require('../lib/columns.js');
const { TEXT, TOKENS, fails, flat, found, random, randomMap, realMaps, simple } = require('./support.js');

const BIASES = Object.values(Bias);
const MANY = 40; // lookups, after which a small map is copied

/** At each token, beside it, on lines without any, and past the last one. */
function positionsOf(tokens, lines) {
  const out = [];
  for (let at = 0; at < tokens.length; at += 6) {
    const [line, column] = [tokens[at], tokens[at + 1]];
    out.push(line, column, line, Math.max(0, column - 1), line, Math.min(NO_ID, column + 1));
  }
  for (let line = 0; line <= Math.min(lines, 50); line++) out.push(line, 0, line, 7, line, NO_ID);
  out.push(lines, 0, lines + 1, 3, NO_ID, 0);
  return Uint32Array.from(out);
}

function compare(map, what) {
  const { lines } = map.counts;
  const tokens = map.tokens();
  const columns = new Columns(tokens, lines);
  const positions = positionsOf(tokens, lines);
  for (const bias of BIASES) {
    const expected = map.traceAll(positions, bias);
    for (let i = 0; i < positions.length / 2; i++) {
      const [line, column] = positions.subarray(2 * i, 2 * i + 2);
      const index = columns.find(line, column, bias);
      const isSame = expected[8 * i] === 0 ? index === -1 : index === expected[8 * i + 1] && index >= 0;
      if (!isSame) assert.fail(`${what}, bias ${bias}, position ${line}:${column}`);
      if (index >= 0) assert.deepEqual(tokens.subarray(6 * index, 6 * index + 6), expected.subarray(8 * i + 2, 8 * i + 8));
    }
    compareSingle(map, positions, bias, expected, what);
  }
}

/** Compares single lookups of the class, most of which no crossing answers, with words of the library. */
function compareSingle(map, positions, bias, expected, what) {
  const { sources, names } = map;
  const step = Math.ceil(positions.length / 2000);
  for (let i = 0; i < positions.length / 2; i += step) {
    const [kind, index, , , line, column, source, name] = expected.subarray(8 * i, 8 * i + 8);
    const wanted = kind < 2 ? null : { source: sources[source], line, column, name: kind === 3 ? names[name] : null, index };
    assert.deepEqual(map.trace(positions[2 * i], positions[2 * i + 1], bias), wanted, `${what}, bias ${bias}, position ${i}`);
  }
}

test('worked rows', () => {
  const columns = new Columns(Uint32Array.from(TOKENS.flat()), 2);
  const rows = [
    [0, 0, Bias.BEFORE, 0],
    [0, 2, Bias.BEFORE, 0],
    [0, 4, Bias.BEFORE, 1],
    [0, 4, Bias.AFTER, 2],
    [0, 9, Bias.AFTER, -1],
    [1, 0, Bias.BEFORE, -1],
    [1, 0, Bias.CLAMPED, 3],
    [2, 0, Bias.CLAMPED, -1],
  ];
  for (const [line, column, bias, index] of rows) assert.equal(columns.find(line, column, bias), index, `${line}:${column}`);
});

test('random maps, with several tokens at one position', () => {
  for (let seed = 0; seed < 300; seed++) {
    const { tokens, json } = randomMap(seed);
    const map = new SourceMap(JSON.stringify(json));
    compare(map, `seed ${seed}`);
    // The same by the words of the documentation.
    const next = random(seed);
    for (let i = 0; i < MANY + 40; i++) {
      const [line, column, bias] = [next(4), next(40), next(3)];
      const index = found(tokens, line, column, bias);
      assert.equal(map.traceToken(line, column, bias)?.index ?? -1, index, `seed ${seed}, ${line}:${column}, bias ${bias}`);
    }
  }
});

test('the maps of the repository', { skip: realMaps().length === 0 && 'the repository is not here' }, () => {
  for (const { path, bytes, refused } of realMaps()) {
    if (refused === null) compare(new SourceMap(bytes), path);
  }
});

/** What a map answers, before it is copied and after, to one question. */
function often(map, ...question) {
  const first = [map.trace(...question), map.traceToken(...question)];
  for (let i = 0; i < MANY; i++) assert.deepEqual([map.trace(...question), map.traceToken(...question)], first);
  return first[0];
}

test('a map that is asked often answers as at first', () => {
  for (const bias of BIASES) {
    for (const [line, column] of [[0, 0], [0, 4], [0, 8], [0, 99], [1, 0], [1, 1], [2, 0]]) often(new SourceMap(TEXT), line, column, bias);
  }
  assert.equal(often(new SourceMap(simple('')), 0, 0), null);
});

test('it refuses what it refused at first, and after `free` everything', () => {
  const map = new SourceMap(TEXT);
  often(map, 0, 4);
  fails({ code: 'SMAP_BAD_OPTION' }, () => map.trace(0, 0, 3));
  assert.throws(() => map.trace(-1, 0), RangeError);
  assert.throws(() => map.trace(0, '1'), TypeError);
  assert.equal(map.trace(0, 4).name, 'hi');
  map.free();
  fails({ code: 'SMAP_NULL_HANDLE' }, () => map.trace(0, 4));
});

test('texts of many ids are kept as those of few', () => {
  const lists = { sources: Array.from({ length: 40 }, (_, i) => `s${i}`), names: Array.from({ length: 30 }, (_, i) => `n${i}`) };
  const tokens = Array.from({ length: 40 }, (_, i) => [0, i, i, 0, i, i % 30]);
  const map = SourceMap.fromTokens(flat(tokens), lists);
  for (const step of [7, 39, 1, 3]) {
    for (let k = 0; k < 80; k++) {
      const i = (k * step) % 40;
      assert.deepEqual(map.trace(0, i), { source: `s${i}`, line: i, column: 0, name: `n${i % 30}`, index: i });
    }
  }
});

test('a change is seen', () => {
  const map = new SourceMap({ version: 3, sourceRoot: 'x/', sources: ['a', 'b'], names: [], mappings: [[[0, 0, 0, 0], [5, 1, 0, 0], [5, 1, 0, 0]]] });
  assert.equal(often(map, 0, 7).source, 'b');
  map.setSources(['c', 'd']);
  assert.equal(often(map, 0, 7).source, 'd');
  map.applySourceRoot();
  assert.equal(often(map, 0, 7).source, 'x/d');
  map.simplify();
  assert.equal(often(map, 0, 7).index, 1);
  map.setSources(['c']);
  assert.equal(often(map, 0, 7), null);
  const turned = SourceMap.fromTokens(Uint32Array.of(0, 9, 0, 0, 0, NO_ID, 0, 1, 3, 4, 0, NO_ID), { sources: ['a'] });
  for (let i = 0; i < MANY; i++) turned.traceToken(0, 3);
  turned.sort();
  assert.equal(often(turned, 0, 3).line, 3);
});

test('a map with ids that are out of range, or not in order of lines, is answered by the library', () => {
  const of = (...tokens) => {
    const builder = new SourceMapBuilder();
    builder.addSource('a');
    builder.addTokens(Uint32Array.from(tokens));
    return builder.finish();
  };
  assert.equal(often(of(0, 0, 1, 2, 7, 3), 0, 1), null);
  assert.deepEqual(often(of(0, 0, 1, 2, 0, 3), 0, 1), { source: 'a', line: 1, column: 2, name: null, index: 0 });
  const back = of(1, 0, 0, 0, 0, NO_ID, 0, 0, 0, 0, 0, NO_ID);
  for (let i = 0; i < MANY; i++) fails({ code: 'SMAP_LINE_ORDER' }, () => back.trace(0, 0));
});

test('maps by turns, of which one is copied', () => {
  const [map, other] = [new SourceMap(TEXT), new SourceMap(simple('AAAA,GAAG'))];
  often(map, 0, 4);
  assert.equal(other.trace(0, 4).column, 3);
  assert.equal(map.trace(0, 4).name, 'hi');
  assert.equal(other.trace(0, 4).column, 3);
  assert.equal(map.generated('a.ts', 0, 9, Direction.AT).index, 1);
});

test('a map of many lines without tokens is not copied line by line', () => {
  const far = 2 ** 25;
  const builder = new SourceMapBuilder();
  builder.addSource('a');
  builder.addToken(far, 0, 0, 0, 0);
  const map = builder.finish();
  const before = process.memoryUsage().arrayBuffers;
  assert.equal(often(map, far, 3).source, 'a');
  assert.ok(process.memoryUsage().arrayBuffers < before + far);
});

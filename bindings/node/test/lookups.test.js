'use strict';
// Lookups: both ways, one by one and in bulk, by the words of the documentation and by the peers.

const test = require('node:test');
const assert = require('node:assert/strict');

const { NO_ID, Bias, Direction, SourceMap } = require('..');
const { MAP, TEXT, TOKENS, flat, simple, fails, found, random, randomMap, positionsOf, peer, needs, realMaps } = require('./support.js');

const tracing = peer('@jridgewell/trace-mapping');
const mozilla = peer('source-map');

const UNSORTED = SourceMap.fromTokens(flat([[1, 0, 0, 0, NO_ID, NO_ID], [0, 0, 0, 0, NO_ID, NO_ID]]));

/** What a lookup of the class is to answer, of the index of a token. */
function original(tokens, { sources, names }, index) {
  if (index < 0 || tokens[index][4] === NO_ID) return null;
  const [, , line, column, source, name] = tokens[index];
  return { source: sources[source], line, column, name: name === NO_ID ? null : names[name], index };
}

function tokenOf(tokens, index) {
  if (index < 0) return null;
  const [generatedLine, generatedColumn, originalLine, originalColumn, source, name] = tokens[index];
  const ids = { sourceId: source === NO_ID ? null : source, nameId: name === NO_ID ? null : name };
  return { generatedLine, generatedColumn, originalLine, originalColumn, ...ids, index };
}

/** The eight words of an answer in bulk. */
function row(tokens, index) {
  if (index < 0) return [0, NO_ID, 0, 0, 0, 0, NO_ID, NO_ID];
  const kind = tokens[index][4] === NO_ID ? 1 : tokens[index][5] === NO_ID ? 2 : 3;
  return [kind, index, ...tokens[index]];
}

test('each bias, at tokens and beside them', () => {
  const tokens = [[0, 4, 1, 0, 0, NO_ID], [0, 7, 2, 0, 0, NO_ID], [0, 7, 3, 0, 0, NO_ID], [0, 9, 3, 0, NO_ID, NO_ID]];
  const map = SourceMap.fromTokens(flat(tokens), { sources: ['s'] });
  const index = (column, bias) => map.traceToken(0, column, bias)?.index ?? null;
  assert.deepEqual([3, 4, 6, 7, 8, 9, 10].map((column) => index(column, Bias.BEFORE)), [null, 0, 0, 1, 2, 3, 3]);
  assert.deepEqual([3, 4, 6, 7, 8, 9, 10].map((column) => index(column, Bias.CLAMPED)), [0, 0, 0, 1, 2, 3, 3]);
  assert.deepEqual([3, 4, 6, 7, 8, 9, 10].map((column) => index(column, Bias.AFTER)), [0, 0, 1, 2, 3, 3, null]);
  assert.deepEqual([map.trace(0, 4294967295), map.trace(4294967295, 0), map.trace(1, 0)], [null, null, null]);
  assert.deepEqual(map.trace(0, 8), { source: 's', line: 3, column: 0, name: null, index: 2 });
});

test('what is asked if nothing is said', () => {
  const map = SourceMap.fromTokens(flat([[0, 4, 1, 6, 0, NO_ID]]), { sources: ['s'] });
  const before = Uint32Array.of(0, 3);
  assert.deepEqual([map.trace(0, 3), map.traceToken(0, 3)], [null, null]);
  assert.deepEqual([[...map.findAll(before)], map.traceAll(before)[0]], [[NO_ID], 0]);
  assert.deepEqual([map.generated(0, 1, 7), map.allGenerated(0, 1, 7).length], [null, 0]);
  assert.deepEqual([map.generated(0, 1, 6).index, map.allGenerated(0, 1, 6).length], [0, 1]);
});

test('a name, a token without a source, and nothing', () => {
  const map = new SourceMap(TEXT);
  assert.deepEqual(map.trace(1, 7), { source: 'b.ts', line: 1, column: 0, name: 'größe', index: 3 });
  assert.deepEqual([map.trace(0, 9), map.traceToken(0, 9).sourceId, map.traceToken(1, 0)], [null, null, null]);
});

test('maps by turns', () => {
  const maps = ['a', 'b', 'c'].map((name) => new SourceMap(simple('AAAA', { sources: [name] })));
  for (let i = 0; i < 30; i++) assert.equal(maps[i % 3].trace(0, i).source, 'abc'[i % 3]);
  maps[0].free();
  fails({ code: 'SMAP_NULL_HANDLE' }, () => maps[0].trace(0, 0));
  assert.equal(maps[1].trace(0, 0).source, 'b');
  maps[1].free();
  fails({ code: 'SMAP_NULL_HANDLE' }, () => maps[1].trace(0, 0));
});

test('maps by turns, of two copies of the package over one addon', () => {
  const here = require.resolve('../lib/map.js');
  const { [here]: own } = require.cache;
  delete require.cache[here];
  const other = require('../lib/map.js').SourceMap;
  require.cache[here] = own;
  assert.notEqual(other, SourceMap);
  const maps = Array.from({ length: 6 }, (_, i) => new [SourceMap, other][i % 2](simple('AAAA', { sources: [`${i}`] })));
  for (let i = 0; i < 60; i++) assert.equal(maps[(i * 5) % 6].trace(0, 0).source, `${(i * 5) % 6}`);
  for (let i = 0; i < 60; i++) assert.equal(maps[(i >> 1) % 6].trace(0, 0).source, `${(i >> 1) % 6}`);
});

test('what a lookup keeps of texts goes with a change', () => {
  const map = new SourceMap(simple('AAAAA', { names: ['x'], sources: ['a', 'b'], sourceRoot: 'r' }));
  assert.deepEqual([map.trace(0, 0).source, map.sources[0]], ['a', 'a']);
  map.applySourceRoot();
  assert.deepEqual([map.trace(0, 0).source, map.sources[0], map.sourceRoot], ['r/a', 'r/a', null]);
  map.setSources(['c']);
  assert.deepEqual([map.trace(0, 0).source, map.sources], ['c', ['c']]);
  const more = new SourceMap(simple('ACAAC', { names: ['x', 'y'], sources: ['a', 'b'] }));
  assert.deepEqual([more.trace(0, 0).source, more.sources, more.names], ['b', ['a', 'b'], ['x', 'y']]);
  more.simplify();
  assert.deepEqual([more.trace(0, 0).source, more.sources, more.trace(0, 0).name, more.names], ['b', ['b'], 'y', ['y']]);
});

test('random maps, one by one and in bulk', () => {
  for (let seed = 0; seed < 100; seed++) {
    const { tokens, json } = randomMap(seed);
    const map = new SourceMap(JSON.stringify(json));
    const positions = positionsOf(tokens, random(seed + 1000));
    for (const bias of [0, 1, 2]) {
      const indices = positions.map(([line, column]) => found(tokens, line, column, bias));
      assert.deepEqual([...map.findAll(flat(positions), bias)], indices.map((it) => (it < 0 ? NO_ID : it)));
      assert.deepEqual([...map.traceAll(flat(positions), bias)], indices.flatMap((it) => row(tokens, it)));
      positions.forEach(([line, column], i) => {
        assert.deepEqual(map.trace(line, column, bias), original(tokens, json, indices[i]));
        assert.deepEqual(map.traceToken(line, column, bias), tokenOf(tokens, indices[i]));
      });
    }
  }
});

test('in bulk: many, none, and arrays that do not fit', () => {
  const tokens = Array.from({ length: 700 }, (_, i) => [i, 3, i, 0, 0, NO_ID]);
  const map = SourceMap.fromTokens(flat(tokens), { sources: ['s'] });
  const positions = Uint32Array.from({ length: 2600 }, (_, i) => (i % 2 ? 4 : (i * 7) % 800));
  const out = new Uint32Array(1300 * 8);
  assert.equal(map.traceAll(positions, Bias.BEFORE, out), out);
  for (let i = 0; i < 1300; i++) assert.deepEqual([...out.subarray(8 * i, 8 * i + 8)], row(tokens, positions[2 * i] < 700 ? positions[2 * i] : -1));
  assert.deepEqual([map.findAll(new Uint32Array(0)).length, map.traceAll(new Uint32Array(0)).length], [0, 0]);
  for (const length of [0, 7, 9, 16]) {
    const kept = new Uint32Array(length).fill(5);
    fails({ code: 'SMAP_LENGTHS' }, () => map.traceAll(Uint32Array.of(0, 3), 0, kept));
    assert.ok(kept.every((it) => it === 5));
  }
  fails({ code: 'SMAP_LENGTHS' }, () => map.findAll(Uint32Array.of(0, 3), 0, new Uint32Array(2)));
  fails({ code: 'SMAP_LENGTHS' }, () => map.findAll(Uint32Array.of(0, 3, 1), 0));
  fails({ code: 'SMAP_LENGTHS' }, () => map.traceAll(Uint32Array.of(0, 3, 1), 0, new Uint32Array(8)));
  fails({ code: 'SMAP_LENGTHS' }, () => map.tokens(new Uint32Array(6 * 701)));
  assert.deepEqual([...map.tokens(new Uint32Array(6 * 700))], tokens.flat());
});

test('in bulk: an output that overlaps what is read', () => {
  const map = new SourceMap(TEXT);
  const both = Uint32Array.of(0, 3, 1, 1);
  map.findAll(both, Bias.BEFORE, both.subarray(0, 2));
  assert.deepEqual([...both], [1, 3, 1, 1]);
  const ahead = Uint32Array.of(0, 3, 1, 1, 0, 9);
  map.findAll(ahead, Bias.BEFORE, ahead.subarray(3));
  assert.deepEqual([...ahead], [0, 3, 1, 1, 3, 2]);
  const all = new Uint32Array(8 * 600).map((_, i) => (i < 1200 ? 1 : 0));
  map.traceAll(all.subarray(0, 1200), Bias.BEFORE, all);
  assert.ok(Array.from({ length: 600 }, (_, i) => [...all.subarray(8 * i, 8 * i + 8)]).every((it) => String(it) === String(row(TOKENS, 3))));
});

test('in bulk: shared memory', () => {
  const map = new SourceMap(TEXT);
  const positions = new Uint32Array(new SharedArrayBuffer(16));
  positions.set([0, 3, 1, 1]);
  const out = new Uint32Array(new SharedArrayBuffer(8));
  assert.deepEqual([...map.findAll(positions, Bias.BEFORE, out)], [1, 3]);
  assert.deepEqual([...map.traceAll(positions)], [...row(TOKENS, 1), ...row(TOKENS, 3)]);
  const tokens = new Uint32Array(new SharedArrayBuffer(4 * 24));
  assert.deepEqual([...map.tokens(tokens)], TOKENS.flat());
  const text = new Uint8Array(new SharedArrayBuffer(TEXT.length + 2));
  text.set(Buffer.from(TEXT));
  assert.equal(new SourceMap(text.subarray(0, Buffer.byteLength(TEXT))).toString(), map.toString());
});

test('refusals of lookups', () => {
  for (const call of [(map) => map.trace(0, 0), (map) => map.traceToken(0, 0), (map) => map.findAll(new Uint32Array(2)), (map) => map.traceAll(new Uint32Array(0))]) {
    fails({ code: 'SMAP_LINE_ORDER', detail: 1 }, () => call(UNSORTED));
  }
  const map = new SourceMap(TEXT);
  for (const call of [() => map.trace(0, 0, 3), () => map.findAll(new Uint32Array(2), 3), () => map.traceAll(new Uint32Array(2), 9)]) {
    fails({ code: 'SMAP_BAD_OPTION' }, call);
  }
  fails({ code: 'SMAP_BAD_OPTION' }, () => map.generated(0, 0, 0, 4));
  fails({ code: 'SMAP_BAD_OPTION' }, () => map.allGenerated(0, 0, 0, 4));
});

test('pieces', () => {
  const map = new SourceMap(TEXT);
  const ends = map.pieces({ line: 0, column: 2 }, { line: 1, column: 5 });
  assert.deepEqual(
    ends.map(({ begin, index }) => [begin.line, begin.column, index]),
    [
      [0, 2, 0],
      [0, 3, 1],
      [0, 8, 2],
      [1, 0, null],
      [1, 1, 3],
    ],
  );
  assert.deepEqual(ends.map((it) => it.end), [...ends.slice(1).map((it) => it.begin), { line: 1, column: 5 }]);
  assert.deepEqual(map.pieces({ line: 1, column: 0 }, { line: 0, column: 9 }), []);
});

test('the first difference', () => {
  const map = new SourceMap(TEXT);
  const other = SourceMap.fromTokens(map.tokens(), { ...MAP, names: ['hi', 'other'] });
  assert.deepEqual(map.firstDifference(other), { line: 1, column: 1 });
  assert.deepEqual(map.firstDifference(SourceMap.fromTokens(map.tokens(), { ...MAP, names: ['other', 'größe'] })), { line: 0, column: 3 });
  assert.deepEqual(map.firstDifference(SourceMap.fromTokens([])), { line: 0, column: 0 });
  assert.equal(map.firstDifference(map.clone()), null);
});

test('reverse lookups of random maps', () => {
  for (let seed = 0; seed < 100; seed++) {
    const { tokens, json } = randomMap(seed);
    const map = new SourceMap(JSON.stringify(json));
    const next = random(seed + 2000);
    for (let i = 0; i < 40; i++) {
      const [source, line, column] = [next(json.sources.length), next(20), next(32)];
      const on = tokens.map((token, index) => ({ index, column: token[3], token })).filter(({ token }) => token[4] === source && token[2] === line);
      const wanted = [
        column,
        Math.max(...on.map((it) => it.column).filter((it) => it <= column)),
        Math.min(...on.map((it) => it.column).filter((it) => it >= column)),
      ];
      for (const direction of [Direction.AT, Direction.FOR, Direction.FROM, Direction.ON_LINE]) {
        const all = on.filter((it) => direction === Direction.ON_LINE || it.column === wanted[direction]).map((it) => it.index);
        assert.deepEqual([...map.allGenerated(source, line, column, direction)], all);
        assert.deepEqual(map.generated(source, line, column, direction), tokenOf(tokens, all[0] ?? -1));
      }
    }
  }
});

test('the index is made when it is needed, and again', () => {
  const map = new SourceMap(TEXT);
  map.indexSources();
  assert.equal(map.generated(1, 1, 0).index, 3);
  map.sort();
  assert.deepEqual([...map.allGenerated(0, 0, 0, Direction.ON_LINE)], [0, 1]);
  assert.equal(map.generated(7, 0, 0), null);
  assert.equal(map.allGenerated(7, 0, 0).length, 0);
});

// ---- by the peers ----

const readable = realMaps().filter((it) => it.refused === null);
const jsons = [...readable.map((it) => JSON.parse(it.bytes)), ...Array.from({ length: 100 }, (_, i) => randomMap(i).json)].filter((it) => !it.sections);

/** The value that peers get: paths of sources that they do not rewrite. */
function plain(json) {
  return { ...json, sourceRoot: undefined, sources: json.sources.map((_, id) => `s${id}`) };
}

function askedOf(map) {
  const all = map.tokens();
  const tokens = Array.from({ length: all.length / 6 }, (_, i) => [...all.subarray(6 * i, 6 * i + 6)]);
  return { tokens, positions: positionsOf(tokens, random(all.length), 200) };
}

test('as trace-mapping', needs('@jridgewell/trace-mapping', tracing), () => {
  for (const json of jsons) {
    const map = new SourceMap(JSON.stringify(plain(json)));
    const trace = new tracing.TraceMap(plain(json));
    const { tokens, positions } = askedOf(map);
    for (const [line, column] of positions) {
      for (const [bias, theirs] of [[Bias.BEFORE, tracing.GREATEST_LOWER_BOUND], [Bias.AFTER, tracing.LEAST_UPPER_BOUND]]) {
        const it = tracing.originalPositionFor(trace, { line: line + 1, column, bias: theirs });
        const mine = map.trace(line, column, bias);
        const said = mine && { source: mine.source, line: mine.line + 1, column: mine.column, name: mine.name };
        assert.deepEqual(said ?? { source: null, line: null, column: null, name: null }, { ...it });
      }
    }
    for (const [, , line, column, source] of tokens.filter((it) => it[4] !== NO_ID).slice(0, 200)) {
      const theirs = tracing.allGeneratedPositionsFor(trace, { source: `s${source}`, line: line + 1, column });
      const mine = [...map.allGenerated(source, line, column)].map((index) => tokens[index]);
      assert.deepEqual(mine.map(([l, c]) => ({ line: l + 1, column: c })), theirs.map(({ line: l, column: c }) => ({ line: l, column: c })));
    }
  }
});

test('as source-map', needs('source-map', mozilla), async () => {
  for (const json of jsons) {
    const map = new SourceMap(JSON.stringify(plain(json)));
    const consumer = await new mozilla.SourceMapConsumer(plain(json));
    const { tokens, positions } = askedOf(map);
    for (const [line, column] of positions) {
      const index = map.traceToken(line, column)?.index;
      // Of several tokens at one position this peer finds any.
      if (index !== undefined && tokens.filter((it) => it[0] === tokens[index][0] && it[1] === tokens[index][1]).length > 1) continue;
      const mine = map.trace(line, column);
      const theirs = consumer.originalPositionFor({ line: line + 1, column });
      const said = mine && { source: mine.source, line: mine.line + 1, column: mine.column, name: mine.name };
      assert.deepEqual(said ?? { source: null, line: null, column: null, name: null }, { ...theirs });
    }
  }
});

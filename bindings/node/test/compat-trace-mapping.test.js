'use strict';
// The module trace-mapping: values worked by hand, the lookups of the library, and the package where it is installed.

const test = require('node:test');
const assert = require('node:assert/strict');

const { SourceMap, Bias, Direction, NO_ID, decodeMappings } = require('..');
const ours = require('../compat/trace-mapping.js');
const { MAP, TEXT, simple, fails, random, randomMap, positionsOf, peer, needs, realMaps } = require('./support.js');

const theirs = peer('@jridgewell/trace-mapping');
const { TraceMap, FlattenMap, LEAST_UPPER_BOUND, GREATEST_LOWER_BOUND } = ours;

// The segments of the map worked by hand.
const DECODED = [[[0, 0, 0, 0], [3, 0, 0, 9, 0], [8]], [[1, 1, 1, 0, 1]]];
const NO_ORIGINAL = { source: null, line: null, column: null, name: null };
const NO_GENERATED = { line: null, column: null };

const original = (map, line, column, bias) => ours.originalPositionFor(map, { line, column, bias });
const generated = (map, source, line, column, bias) => ours.generatedPositionFor(map, { source, line, column, bias });
const allGenerated = (map, source, line, column, bias) => ours.allGeneratedPositionsFor(map, { source, line, column, bias });

test('a map that was asked for many positions is copied as a message to a worker is', () => {
  const map = new TraceMap({ version: 3, sources: ['a'], names: [], mappings: 'AAAA,CAAC;AACA' });
  for (let i = 0; i < 40; i++) allGenerated(map, 'a', 1, 0);
  assert.deepEqual(allGenerated(structuredClone(map), 'a', 1, 0), [{ line: 1, column: 0 }]);
});

test('small maps, of which some lie in one memory, keep what they have', () => {
  const lengths = Array.from({ length: 400 }, (_, i) => 1 + ((7 * i) % 60));
  const maps = lengths.map((length) => new TraceMap({ version: 3, sources: ['a'], names: [], mappings: 'AAAA' + ',CAEA'.repeat(length - 1) }));
  for (const map of maps) original(map, 1, 0);
  maps.forEach((map, i) => {
    const last = lengths[i] - 1;
    for (const column of [0, last >> 1, last]) {
      assert.deepEqual(original(map, 1, column), { source: 'a', line: 1 + 2 * column, column: 0, name: null });
    }
    assert.equal(ours.decodedMappings(map)[0].length, lengths[i]);
  });
  assert.equal(decodeMappings('AAAA,CAAC,CAAC').buffer.byteLength, 72); // which may be given away
});

test('a map has the members of its value, and resolved sources', () => {
  for (const input of [TEXT, MAP, { ...MAP, mappings: DECODED }]) {
    const map = new TraceMap(input, 'https://x.org/js/out.js.map');
    const { version, file, names, sourceRoot, sources, sourcesContent, ignoreList, resolvedSources } = map;
    assert.deepEqual({ version, file, names, sourceRoot, sources, sourcesContent, ignoreList }, {
      version: 3,
      file: 'out.js',
      names: ['hi', 'größe'],
      sourceRoot: 'src/',
      sources: ['a.ts', 'b.ts'],
      sourcesContent: ['let hi;', null],
      ignoreList: [1],
    });
    assert.deepEqual(resolvedSources, ['https://x.org/js/src/a.ts', 'https://x.org/js/src/b.ts']);
  }
});

test('a TraceMap of a TraceMap is that map', () => {
  const map = new TraceMap(TEXT);
  assert.equal(new TraceMap(map), map);
  assert.equal(new FlattenMap(map), map);
  assert.ok(new FlattenMap(TEXT) instanceof TraceMap);
  assert.equal(ours.AnyMap, FlattenMap);
});

test('members that are not there', () => {
  const map = new TraceMap('{"version":3,"sources":[null],"mappings":"AAAA"}');
  assert.deepEqual([map.names, map.file, map.sourceRoot, map.sourcesContent], [[], undefined, undefined, undefined]);
  assert.deepEqual([map.sources, map.resolvedSources], [[null], ['']]);
  assert.deepEqual(original(map, 1, 0), { source: '', line: 1, column: 0, name: null });
  assert.equal(ours.sourceContentFor(map, null), null);
  assert.equal(ours.isIgnored(map, null), false);
});

test('what is no map', () => {
  assert.throws(() => new TraceMap('{'), SyntaxError);
  assert.throws(() => new TraceMap({ version: 3, mappings: '' }), { name: 'TypeError', message: /no list of sources/ });
  assert.throws(() => new TraceMap({ version: 3, sections: [] }), { name: 'TypeError', message: /FlattenMap/ });
  assert.throws(() => new TraceMap({ version: 3, sources: [] }), { name: 'TypeError', message: /neither a text nor/ });
});

test('the forms of the mappings', () => {
  for (const mappings of [MAP.mappings, DECODED]) {
    const map = new TraceMap({ ...MAP, mappings });
    assert.equal(ours.encodedMappings(map), MAP.mappings === mappings ? mappings : 'AAAA,GAASA,K;CCCTC');
    assert.deepEqual(ours.decodedMappings(map), DECODED);
    assert.equal(ours.decodedMappings(map), ours.decodedMappings(map));
  }
  const given = new TraceMap({ ...MAP, mappings: DECODED });
  assert.equal(ours.decodedMappings(given), DECODED);
  assert.equal(ours.decodedMappings(ours.presortedDecodedMap({ ...MAP, mappings: DECODED })), DECODED);
});

test('empty lines stay', () => {
  const map = new TraceMap(simple(';AAAA;;'));
  assert.deepEqual(ours.decodedMappings(map), [[], [[0, 0, 0, 0]], [], []]);
  const given = new TraceMap(JSON.parse(simple([[], [[0, 0, 0, 0]], [], []])));
  assert.equal(ours.encodedMappings(given), ';AAAA;;');
  assert.equal(ours.encodedMappings(new TraceMap(JSON.parse(simple([[], []])))), ';');
});

test('the value of a map', () => {
  const { debugId, ...rest } = MAP;
  const keys = ['version', 'file', 'names', 'sourceRoot', 'sources', 'sourcesContent', 'mappings', 'ignoreList'];
  const encoded = ours.encodedMap(new TraceMap(TEXT));
  assert.deepEqual(encoded, rest);
  assert.deepEqual(Object.keys(encoded), keys);
  assert.deepEqual(ours.decodedMap(new TraceMap(TEXT)), { ...rest, mappings: DECODED });
  assert.deepEqual(Object.keys(ours.encodedMap(new TraceMap(simple('')))), keys.slice(0, 7));
});

test('original positions', () => {
  const map = new TraceMap(TEXT);
  const hi = { source: 'src/a.ts', line: 1, column: 9, name: 'hi' };
  const start = { source: 'src/a.ts', line: 1, column: 0, name: null };
  assert.deepEqual(original(map, 1, 2), start);
  assert.deepEqual(original(map, 1, 2.5), start);
  assert.deepEqual(original(map, 1, 3), hi);
  assert.deepEqual(original(map, 1, 7, GREATEST_LOWER_BOUND), hi);
  assert.deepEqual(original(map, 1, 1, LEAST_UPPER_BOUND), hi);
  assert.deepEqual(original(map, 1, 8), NO_ORIGINAL);
  assert.deepEqual(original(map, 1, 9, LEAST_UPPER_BOUND), NO_ORIGINAL);
  assert.deepEqual(original(map, 2, 0), NO_ORIGINAL);
  assert.deepEqual(original(map, 2, Infinity), { source: 'src/b.ts', line: 2, column: 0, name: 'größe' });
  assert.deepEqual(original(map, 3, 0), NO_ORIGINAL);
  assert.deepEqual(Object.keys(original(map, 1, 3)), ['source', 'line', 'column', 'name']);
});

test('segments', () => {
  const map = new TraceMap(TEXT);
  assert.deepEqual(ours.traceSegment(map, 0, 2), [0, 0, 0, 0]);
  assert.deepEqual(ours.traceSegment(map, 0, 3), [3, 0, 0, 9, 0]);
  assert.deepEqual(ours.traceSegment(map, 0, Infinity), [8]);
  assert.equal(ours.traceSegment(map, 1, 0), null);
  assert.equal(ours.traceSegment(map, 2, 0), null);
  assert.equal(ours.traceSegment(map, Infinity, 0), null);
});

test('a segment is that of the decoded mappings', () => {
  const map = new TraceMap(TEXT);
  const decoded = ours.decodedMappings(map);
  assert.equal(ours.traceSegment(map, 0, 5), decoded[0][1]);
  assert.equal(ours.traceSegment(map, 1, 1), decoded[1][0]);
});

test('several mappings at one column', () => {
  const map = new TraceMap({ version: 3, sources: ['a'], names: [], mappings: [[[2, 0, 0, 0], [2, 0, 1, 0], [2, 0, 2, 0], [5]]] });
  assert.equal(original(map, 1, 2).line, 1);
  assert.equal(original(map, 1, 3).line, 3);
  assert.equal(original(map, 1, 2, LEAST_UPPER_BOUND).line, 3);
  assert.equal(original(map, 1, 1, LEAST_UPPER_BOUND).line, 1);
});

test('what is no place', () => {
  const map = new TraceMap(TEXT);
  const line = { name: 'Error', message: '`line` must be greater than 0 (lines start at line 1)' };
  const column = { name: 'Error', message: '`column` must be greater than or equal to 0 (columns start at column 0)' };
  for (const call of [original, (it, l, c) => generated(it, 'a.ts', l, c), (it, l, c) => allGenerated(it, 'a.ts', l, c)]) {
    assert.throws(() => call(map, 0, 0), line);
    assert.throws(() => call(map, -1, -1), line);
    assert.throws(() => call(map, 1, -1), column);
  }
  for (const given of [1.5, undefined]) {
    assert.throws(() => original(map, given, 0), { name: 'TypeError', message: `\`line\` is ${given}, and not an integer from 1 to 4294967296` });
  }
  for (const [given, said] of [[-1, '-1'], ['1', '"1"']]) {
    assert.throws(() => ours.traceSegment(map, given, 0), { name: 'TypeError', message: `\`line\` is ${said}, and not an integer from 0 to 4294967295` });
  }
  assert.equal(ours.traceSegment(map, 0, -1), null);
});

test('generated positions', () => {
  const map = new TraceMap(TEXT);
  for (const source of ['a.ts', 'src/a.ts']) {
    assert.deepEqual(generated(map, source, 1, 9), { line: 1, column: 3 });
    assert.deepEqual(generated(map, source, 1, 8), { line: 1, column: 0 });
    assert.deepEqual(generated(map, source, 1, Infinity), { line: 1, column: 3 });
    assert.deepEqual(generated(map, source, 1, 8.5, LEAST_UPPER_BOUND), { line: 1, column: 3 });
    assert.deepEqual(generated(map, source, 1, 10, LEAST_UPPER_BOUND), NO_GENERATED);
    assert.deepEqual(generated(map, source, 2, 0), NO_GENERATED);
    assert.deepEqual(allGenerated(map, source, 1, 1), [{ line: 1, column: 3 }]);
    assert.deepEqual(allGenerated(map, source, 1, 1, GREATEST_LOWER_BOUND), [{ line: 1, column: 0 }]);
    assert.deepEqual(allGenerated(map, source, 1, 10), []);
  }
  assert.deepEqual(generated(map, 'c.ts', 1, 0), NO_GENERATED);
  assert.deepEqual(allGenerated(map, 'c.ts', 1, 0), []);
});

test('several generated positions of one place, by scans and by the index', () => {
  const lines = [[[0, 0, 0, 4], [3, 0, 0, 8]], [[0, 0, 0, 4], [2, 0, 0, 8], [7]], [[1, 0, 0, 4]]];
  const map = new TraceMap({ version: 3, sources: ['a'], names: [], mappings: lines });
  for (let round = 0; round < 20; round++) {
    assert.deepEqual(generated(map, 'a', 1, 4), { line: 1, column: 0 });
    assert.deepEqual(generated(map, 'a', 1, 4, LEAST_UPPER_BOUND), { line: 3, column: 1 });
    assert.deepEqual(generated(map, 'a', 1, 6), { line: 3, column: 1 });
    assert.deepEqual(generated(map, 'a', 1, 6, LEAST_UPPER_BOUND), { line: 1, column: 3 });
    assert.deepEqual(allGenerated(map, 'a', 1, 7), [{ line: 1, column: 3 }, { line: 2, column: 2 }]);
    const fours = [{ line: 1, column: 0 }, { line: 2, column: 0 }, { line: 3, column: 1 }];
    assert.deepEqual(allGenerated(map, 'a', 1, 7, GREATEST_LOWER_BOUND), fours);
  }
});

test('all mappings', () => {
  const all = [];
  ours.eachMapping(new TraceMap(TEXT), (mapping) => all.push(mapping));
  const first = {
    generatedLine: 1,
    generatedColumn: 0,
    source: 'src/a.ts',
    originalLine: 1,
    originalColumn: 0,
    name: null,
  };
  assert.deepEqual(all, [
    first,
    { ...first, generatedColumn: 3, originalColumn: 9, name: 'hi' },
    { ...first, generatedColumn: 8, source: null, originalLine: null, originalColumn: null },
    { generatedLine: 2, generatedColumn: 1, source: 'src/b.ts', originalLine: 2, originalColumn: 0, name: 'größe' },
  ]);
  assert.deepEqual(Object.keys(all[0]), Object.keys(first));
});

test('contents and ignored sources', () => {
  const map = new TraceMap(TEXT);
  assert.equal(ours.sourceContentFor(map, 'a.ts'), 'let hi;');
  assert.equal(ours.sourceContentFor(map, 'src/a.ts'), 'let hi;');
  assert.equal(ours.sourceContentFor(map, 'b.ts'), null);
  assert.equal(ours.sourceContentFor(map, 'c.ts'), null);
  assert.deepEqual(['a.ts', 'b.ts', 'src/b.ts', 'c.ts'].map((it) => ours.isIgnored(map, it)), [false, true, true, false]);
  const older = new TraceMap(simple('', { x_google_ignoreList: [0] }));
  assert.equal(ours.isIgnored(older, 'a.js'), true);
});

// ---- what is mended, and what is not ----

test('lines that are not sorted are, and the input stays', () => {
  const lines = [[[4, 0, 0, 1], [0, 0, 0, 0]], [[1, 0, 1, 0]]];
  const copy = structuredClone(lines);
  const map = new TraceMap({ version: 3, sources: ['a'], names: [], mappings: lines });
  assert.deepEqual(ours.decodedMappings(map), [[[0, 0, 0, 0], [4, 0, 0, 1]], [[1, 0, 1, 0]]]);
  assert.deepEqual(lines, copy);
  assert.equal(ours.decodedMappings(map)[1], lines[1]);
  assert.deepEqual(ours.mends(map).map(({ kind }) => kind), ['UNSORTED']);
  const text = new TraceMap(simple('IAAA,JAAA'));
  assert.deepEqual(ours.decodedMappings(text), [[[0, 0, 0, 0], [4, 0, 0, 0]]]);
  assert.deepEqual(ours.mends(text), SourceMap.found(simple('IAAA,JAAA')).mends);
});

test('ids out of range are mended', () => {
  const lines = [[[0, 5, 0, 0, 0], [2, 0, 0, 1, 7]]];
  for (const mappings of [lines, 'AKAAA,ELACO']) {
    const map = new TraceMap({ version: 3, sources: ['a'], names: ['x'], mappings });
    assert.deepEqual(original(map, 1, 0), NO_ORIGINAL);
    assert.deepEqual(original(map, 1, 2), { source: 'a', line: 1, column: 1, name: null });
    assert.deepEqual(ours.mends(map).map(({ kind, number }) => [kind, number]), [['SOURCE_IDS', 1], ['NAME_IDS', 1]]);
  }
  assert.deepEqual(ours.mends(new TraceMap(TEXT)), []);
  const named = new TraceMap({ version: 3, sources: ['a'], names: ['x'], mappings: [[[0, 0, 0, 0, 1]]] });
  assert.deepEqual(original(named, 1, 0), { source: 'a', line: 1, column: 0, name: null });
});

test('a fault is refused when the mappings are needed first', () => {
  const map = new TraceMap(simple('AAAA;AA'));
  assert.equal(ours.encodedMappings(map), 'AAAA;AA');
  fails({ code: 'SMAP_BAD_SEGMENT_SIZE', placeMessage: 'line 1, segment 0 (byte 5)' }, () => original(map, 1, 0));
  for (const [segment, name, message] of [
    [[-1], 'RangeError', 'Segment 0 of line 1 of the mappings has -1, which is no column, line or id'],
    [[0, 0, 0.5, 0], 'RangeError', /has 0.5/],
    [[0, NO_ID, 0, 0], 'RangeError', /has 4294967295/],
    [[0, 0], 'RangeError', /has 2 numbers, and not 1, 4 or 5/],
    [[0, '0', 0, 0], 'TypeError', /has "0",/],
    [[0, 0, 0, undefined], 'TypeError', /has undefined/],
  ]) {
    const given = new TraceMap({ version: 3, sources: ['a'], names: [], mappings: [[], [segment]] });
    assert.throws(() => ours.traceSegment(given, 0, 0), { name, message });
  }
});

// ---- sections ----

const section = (line, column, mappings, more = {}) => ({
  offset: { line, column },
  map: { version: 3, sources: ['a'], names: ['n'], mappings, ...more },
});

test('sections become one map', () => {
  const sections = [
    section(0, 0, 'AAAAA,CAAC;AAAA', { sources: ['a', 'b'], sourcesContent: ['A'], ignoreList: [1] }),
    section(1, 3, 'AAAAA,EACA;A', { sourceRoot: 'root', ignoreList: [0] }),
  ];
  const map = new FlattenMap({ version: 3, file: 'f.js', sections }, 'https://x.org/m/f.map');
  assert.deepEqual(ours.decodedMap(map), {
    version: 3,
    file: 'f.js',
    names: ['n', 'n'],
    sourceRoot: undefined,
    sources: ['https://x.org/m/a', 'https://x.org/m/b', 'https://x.org/m/root/a'],
    sourcesContent: ['A', null, null],
    mappings: [[[0, 0, 0, 0, 0], [1, 0, 0, 1]], [[0, 0, 0, 1], [3, 2, 0, 0, 1], [5, 2, 1, 0]], [[0]]],
    ignoreList: [1, 2],
  });
  assert.deepEqual(original(map, 2, 4), { source: 'https://x.org/m/root/a', line: 1, column: 0, name: 'n' });
  assert.deepEqual(ours.encodedMap(FlattenMap(JSON.stringify({ version: 3, sections }))).mappings, 'AAAAA,CAAC;AAAA,GEADC,EACA;A');
});

test('a section ends where the next one begins', () => {
  const map = FlattenMap({ version: 3, sections: [section(0, 0, 'AAAA,EAAE,EAAE;AAAA;AAAA'), section(0, 3, 'AAAA')] });
  assert.deepEqual(ours.decodedMappings(map), [[[0, 0, 0, 0], [2, 0, 0, 2], [3, 1, 0, 0]]]);
  assert.deepEqual(ours.mends(map).map(({ kind, section: at, number }) => [kind, at, number]), [['CUT', 0, 3]]);
});

test('sections in sections', () => {
  const inner = { version: 3, sections: [section(0, 2, 'AAAA'), section(1, 1, 'AAAA;AAAA;AAAA')] };
  const map = FlattenMap({ version: 3, sections: [{ offset: { line: 1, column: 10 }, map: inner }, section(3, 0, 'A')] });
  assert.deepEqual(ours.decodedMappings(map), [[], [[12, 0, 0, 0]], [[1, 1, 0, 0]], [[0]]]);
  assert.deepEqual(map.sources, ['a', 'a', 'a']);
  const text = FlattenMap({ version: 3, sections: [{ offset: { line: 0, column: 1 }, map: simple('AAAA') }] });
  assert.deepEqual(ours.decodedMappings(text), [[[1, 0, 0, 0]]]);
});

test('a section that begins nowhere', () => {
  const wrong = [
    [{ line: -1, column: 0 }, 'line of a section is -1'],
    [{ line: 0, column: '1' }, 'column of a section is "1"'],
    [{}, 'line of a section is undefined'],
  ];
  for (const [offset, said] of wrong) {
    const error = { name: 'RangeError', message: `The ${said}, and not an integer from 0 to 4294967295` };
    assert.throws(() => FlattenMap({ version: 3, sections: [{ ...section(0, 0, ''), offset }] }), error);
  }
  assert.throws(() => FlattenMap({ version: 3, sections: [section(0, NO_ID, 'C')] }), RangeError);
});

// ---- beside the library ----

test('lookups are those of the library', () => {
  for (let seed = 1; seed <= 100; seed++) {
    const { tokens, json } = randomMap(seed);
    const library = new SourceMap(JSON.stringify(json));
    const map = new TraceMap(json);
    for (const [line, column] of positionsOf(tokens, random(seed))) {
      for (const [bias, itsBias] of [[GREATEST_LOWER_BOUND, Bias.BEFORE], [LEAST_UPPER_BOUND, Bias.AFTER]]) {
        const it = library.trace(line, column, itsBias);
        const expected = it === null ? NO_ORIGINAL : { source: it.source, line: it.line + 1, column: it.column, name: it.name };
        assert.deepEqual(original(map, line + 1, column, bias), expected, `${seed}: ${line}:${column}`);
      }
    }
    for (const [, , line, column, id] of tokens.filter((it) => it[4] !== NO_ID)) {
      const all = Array.from(library.allGenerated(id, line, column, Direction.FOR), (index) => {
        const { generatedLine, generatedColumn } = library.token(index);
        return { line: generatedLine + 1, column: generatedColumn };
      });
      assert.deepEqual(allGenerated(map, json.sources[id], line + 1, column), all);
    }
  }
});

// ---- beside the package ----

const URLS = [undefined, null, '', 'out.js.map', 'https://x.org/a/b.js.map', '/abs/out.map'];

/** All that both say of a value of a map. */
function compare(value, mapUrl, next) {
  const a = new TraceMap(value, mapUrl);
  const b = new theirs.TraceMap(value, mapUrl);
  const says = (name, ...args) => {
    const [x, y] = [ours[name](a, ...args), theirs[name](b, ...args)];
    assert.deepEqual(x, y, `${name} ${JSON.stringify(args)}`);
    return x;
  };
  assert.deepEqual(a.resolvedSources, b.resolvedSources);
  const lines = says('decodedMappings');
  says('encodedMappings');
  compareMappings(a, b);
  for (let count = 0; count < 40; count++) {
    const line = next(lines.length + 2);
    const column = [next(40), next(40) + 0.5, lines[line]?.at(-1)?.[0] ?? 0, lines[line]?.[0]?.[0] ?? 0, Infinity][next(5)];
    says('traceSegment', line, column);
    for (const bias of [undefined, GREATEST_LOWER_BOUND, LEAST_UPPER_BOUND]) says('originalPositionFor', { line: line + 1, column, bias });
  }
  compareBack(a, lines, says, next);
}

function compareMappings(a, b) {
  const [x, y] = [[], []];
  ours.eachMapping(a, (mapping) => x.push(mapping));
  theirs.eachMapping(b, (mapping) => y.push(mapping));
  assert.deepEqual(x, y);
}

function compareBack(map, lines, says, next) {
  const segments = lines.flat().filter((it) => it.length > 1);
  for (let count = 0; count < 30 && segments.length > 0; count++) {
    const [, id, line, column] = segments[next(segments.length)];
    const source = next(2) === 0 ? map.sources[id] : map.resolvedSources[id];
    says('sourceContentFor', source);
    for (const bias of [undefined, GREATEST_LOWER_BOUND, LEAST_UPPER_BOUND]) {
      const needle = { source, line: line + 1, column: Math.max(0, column + next(5) - 2), bias };
      says('generatedPositionFor', needle);
      says('allGeneratedPositionsFor', needle);
    }
  }
}

test('random maps beside the package', needs('@jridgewell/trace-mapping', theirs), () => {
  for (let seed = 1; seed <= 100; seed++) {
    const next = random(seed);
    const { json } = randomMap(seed);
    const value = { ...json, sourceRoot: [undefined, '', 'r', 'https://y.org/'][next(4)] };
    const url = URLS[next(URLS.length)];
    compare(value, url, next);
    compare(JSON.stringify(value), url, next);
    compare({ ...value, mappings: theirs.decodedMappings(new theirs.TraceMap(value)) }, url, next);
  }
});

test('real maps beside the package', needs('@jridgewell/trace-mapping', theirs), () => {
  for (const { bytes, refused } of realMaps()) {
    const value = JSON.parse(bytes);
    if (refused || value.sections) continue;
    const { ignoreList, x_google_ignoreList, ...rest } = value;
    compare(rest, 'maps/x.map', random(7));
  }
});

test('sections beside the package', needs('@jridgewell/trace-mapping', theirs), () => {
  const real = realMaps().map(({ bytes, refused }) => (refused ? {} : JSON.parse(bytes))).filter((value) => value.sections);
  for (let seed = 1; seed <= 100; seed++) {
    const next = random(seed);
    const sections = [1, 2, 3].map((it) => ({
      offset: { line: 3 * it + next(3), column: next(9) },
      map: { ...randomMap(seed + 1000 * it).json, sourceRoot: [undefined, 'r'][next(2)] },
    }));
    real.push({ version: 3, file: 'all.js', sections });
  }
  for (const value of real) {
    const [a, b] = [new FlattenMap(value, 'm/all.map'), new theirs.AnyMap(value, 'm/all.map')];
    assert.deepEqual(ours.decodedMap(a), theirs.decodedMap(b));
    assert.deepEqual(ours.encodedMap(a), theirs.encodedMap(b));
    assert.deepEqual(a.resolvedSources, b.resolvedSources);
  }
});

test('maps of the package and of this one go into functions of the other', needs('@jridgewell/trace-mapping', theirs), () => {
  const [a, b] = [new TraceMap(TEXT), new theirs.TraceMap(TEXT)];
  assert.equal(new TraceMap(b), b);
  assert.equal(new theirs.TraceMap(a), a);
  const hi = { source: 'src/a.ts', line: 1, column: 9, name: 'hi' };
  assert.deepEqual(ours.originalPositionFor(b, { line: 1, column: 4 }), hi);
  assert.deepEqual(theirs.originalPositionFor(a, { line: 1, column: 4 }), hi);
  assert.deepEqual(theirs.generatedPositionFor(a, { source: 'a.ts', line: 1, column: 9 }), { line: 1, column: 3 });
  assert.deepEqual(ours.generatedPositionFor(b, { source: 'a.ts', line: 1, column: 9 }), { line: 1, column: 3 });
});

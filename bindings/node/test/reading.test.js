'use strict';
// Reading: maps as they are, as they are found, on the thread pool; errors and their places.

const test = require('node:test');
const assert = require('node:assert/strict');

const { NO_ID, SourceMap, SourceMapError, decodeMappings } = require('..');
const native = require('../lib/native.js');
const constants = require('../lib/constants.js');
const { errorOf } = require('../lib/errors.js');
const { MAP, TEXT, TOKENS, flat, simple, fails, randomMap } = require('./support.js');

const INDEXED = JSON.stringify({
  version: 3,
  file: 'out.js',
  sections: [
    { offset: { line: 0, column: 0 }, map: { version: 3, sources: ['a.js'], mappings: 'AAAA,IAAI' } },
    { offset: { line: 0, column: 10 }, map: { version: 3, sources: ['b.js'], mappings: 'AAAA;AACA' } },
  ],
});

test('a map, of a string and of bytes', () => {
  for (const text of [TEXT, Buffer.from(TEXT), new TextEncoder().encode(TEXT), Buffer.from(`  ${TEXT}`).subarray(2)]) {
    const map = new SourceMap(text);
    assert.deepEqual([...map.tokens()], TOKENS.flat());
    assert.deepEqual([map.names, map.sources, map.sourcesContent], [MAP.names, MAP.sources, MAP.sourcesContent]);
    assert.deepEqual([map.file, map.sourceRoot, map.debugId, map.ignoreList], ['out.js', 'src/', 'd-1', [1]]);
    const { bytes, ...counts } = map.counts;
    assert.deepEqual(counts, { tokens: 4, names: 2, sources: 2, sourcesContent: 2, ignoreList: 1, lines: 2 });
    assert.ok(bytes > 4 * 24 && bytes < 10_000);
    assert.deepEqual(map.toJSON(), MAP);
    assert.ok(map.isSorted && map.isSound);
  }
});

test('what a map does not have', () => {
  const map = new SourceMap(simple(''));
  assert.deepEqual([map.file, map.sourceRoot, map.debugId, map.ignoreList], [null, null, null, null]);
  assert.deepEqual([map.names, map.sourcesContent, [...map.tokens()]], [[], [], []]);
  assert.deepEqual([map.getName(0), map.getSource(1), map.getSourceContent(0), map.token(0)], [null, null, null, null]);
  assert.deepEqual(new SourceMap(simple('', { ignoreList: [] })).ignoreList, []);
  assert.deepEqual(new SourceMap(simple('', { sourcesContent: [null] })).getSourceContent(0), null);
});

test('texts one by one', () => {
  const map = new SourceMap(TEXT);
  assert.deepEqual([map.getName(1), map.getSource(1), map.getSourceContent(0), map.getSourceContent(1)], ['größe', 'b.ts', 'let hi;', null]);
  assert.deepEqual(map.token(3), {
    generatedLine: 1,
    generatedColumn: 1,
    originalLine: 1,
    originalColumn: 0,
    sourceId: 1,
    nameId: 1,
    index: 3,
  });
  assert.deepEqual([map.token(2).sourceId, map.token(2).nameId, map.token(1).nameId], [null, null, 0]);
  assert.ok(Object.isFrozen(map.names) && Object.isFrozen(map.sources) && map.names === map.names);
});

test('texts of every kind, long and short', () => {
  const texts = ['größe', '😀', '\u0000', '\ufeffx', '日本', 'x'.repeat(70_000), 'é'.repeat(70_000), '\uffff', '\u007f\u0080', '1234567é'];
  const json = { version: 3, names: texts, sources: texts, sourcesContent: texts, mappings: '' };
  for (const map of [new SourceMap(JSON.stringify(json)), SourceMap.fromTokens([], json)]) {
    assert.deepEqual([map.names, map.sources, map.sourcesContent], [texts, texts, texts]);
    assert.deepEqual(map.toJSON(), json);
    assert.deepEqual(JSON.parse(Buffer.from(map.toBytes()).toString()), json);
  }
});

test('an indexed map is the join of its sections', () => {
  const map = new SourceMap(INDEXED);
  assert.equal(map.toString(), '{"version":3,"file":"out.js","names":[],"sources":["a.js","b.js"],"mappings":"AAAA,IAAI,MCAJ;AACA"}');
  assert.deepEqual(map.trace(0, 11), { source: 'b.js', line: 0, column: 0, name: null, index: 2 });
  fails({ code: 'SMAP_SECTION_ORDER', detail: 1 }, () => new SourceMap(INDEXED.replace('"column":10', '"column":3')));
});

test('errors of texts', () => {
  const rows = [
    ['{', { code: 'SMAP_JSON_READING', message: 'JSON parsing error: the text is not JSON, at line 0, column 1 (byte 1)', placeMessage: 'line 0, column 1 (byte 1)' }],
    ['[3]', { code: 'SMAP_JSON_SHAPE', field: 'value', message: 'JSON parsing error: the value is not an object, at the value' }],
    ['{"version":2}', { code: 'SMAP_JSON_VERSION', detail: 2, field: null, message: 'JSON parsing error: unsupported source map version: 2, at version' }],
    ['{"version":4294967295}', { code: 'SMAP_JSON_VERSION', detail: 4294967295 }],
    [simple('', { names: null }), { code: 'SMAP_JSON_SHAPE', field: 'names', message: 'JSON parsing error: field names is missing or has the wrong type, at names' }],
    [simple('', { ignoreList: [0.5] }), { code: 'SMAP_JSON_SHAPE', field: 'ignoreList' }],
    [simple('', { ignoreList: null, x_google_ignoreList: [3] }), { code: 'SMAP_BAD_SOURCE_REFERENCE', detail: 3 }],
    [simple('AA'), { code: 'SMAP_BAD_SEGMENT_SIZE', detail: 2, message: 'Mapping segment had an unsupported size of 2, at line 0, segment 0 (byte 0)' }],
    [simple('AAAAg', { names: ['a'] }), { code: 'SMAP_VLQ_LEFTOVER' }],
    [simple('gggggggggggggg'), { code: 'SMAP_VLQ_OVERFLOW' }],
    [simple('ACAA'), { code: 'SMAP_BAD_SOURCE_REFERENCE', detail: 0 }],
    [simple('AAAAA'), { code: 'SMAP_BAD_NAME_REFERENCE', detail: 0 }],
    [Buffer.from([0x7b, 0xc3]), { code: 'SMAP_NOT_UTF8', detail: 1, place: null, placeMessage: '' }],
  ];
  for (const [text, properties] of rows) fails(properties, () => new SourceMap(text));
});

test('what is really wrong, where the message says something else', () => {
  const rows = [
    [simple('AAAA,DAAA'), 'line 0, segment 1 (byte 5): a column below 0'],
    [simple(' AAAA'), 'line 0, segment 0 (byte 0): a byte that is no digit: 0x20'],
    [simple('ADAA'), 'line 0, segment 0 (byte 0): a source id below 0'],
    [simple('AAAAD', { names: ['n'] }), 'line 0, segment 0 (byte 0): a name id below 0'],
    [simple('AA'), 'line 0, segment 0 (byte 0)'],
    ['{"version":3.0,"sources":[],"mappings":""}', 'version: a whole number that is not written in digits alone'],
    [simple('', { ignoreList: [0.5] }), 'entry 0 of ignoreList: a number that is not whole'],
    ['{"version":3,"file":"\\ud800"}', 'line 0, column 20 (byte 20): a lone surrogate'],
    ['{"version":1e999}', 'line 0, column 16 (byte 16): a number too large for a float'],
    [`${'['.repeat(200)}${']'.repeat(200)}`, 'line 0, column 128 (byte 128): values nested deeper than 127'],
  ];
  for (const [text, placeMessage] of rows) {
    fails({ placeMessage }, () => new SourceMap(text));
    fails({ placeMessage }, () => new SourceMap(Buffer.from(text)));
  }
  fails({ placeMessage: 'line 1, segment 0 (byte 2): a column below 0' }, () => decodeMappings('A;D'));
  fails({ placeMessage: 'line 0, segment 0 (byte 0): a column below 0' }, () => SourceMap.found(`)]}'\n${simple('D')}`));
});

test('places of errors', () => {
  const none = { field: null, text: null, section: null, line: null, segment: null, column: null, byte: null, entry: null };
  const place = (text) => {
    try {
      new SourceMap(text);
    } catch (error) {
      return error.place;
    }
    return assert.fail('it is read');
  };
  assert.deepEqual(place(simple('AAAA;A,AA')), { ...none, kind: 'segment', line: 1, segment: 1, byte: 7 });
  assert.deepEqual(place('{\n "a"'), { ...none, kind: 'reading', line: 1, column: 4, byte: 6 });
  assert.deepEqual(place(simple('', { file: 1 })), { ...none, kind: 'member', field: 'file' });
  assert.deepEqual(place(simple('', { names: ['a', 1] })), { ...none, kind: 'entry', field: 'names', entry: 1 });
  const indexed = place(INDEXED.replace('AAAA;AACA', 'AAAA;AA'));
  assert.deepEqual(indexed, { ...none, kind: 'segment', section: 1, line: 1, segment: 0, byte: 5 });
});

test('an error is an Error', () => {
  const error = (() => {
    try {
      new SourceMap('{');
    } catch (it) {
      return it;
    }
  })();
  assert.ok(error instanceof Error && error instanceof SourceMapError);
  assert.match(error.stack, /^SourceMapError: JSON parsing error: the text is not JSON, at line 0, column 1 \(byte 1\)\n/);
  assert.deepEqual(Object.keys(error), ['code', 'detail', 'field', 'reason', 'place', 'placeMessage']);
});

test('errors of a newer library, and numbers of 64 bits', () => {
  const fault = new Uint32Array(18);
  fault.set([9999, 1, 5, 2, 1, 0, NO_ID, NO_ID, NO_ID, 4, 5, 6, 7, 8, 9, 10, 11, 12]);
  const error = errorOf(fault);
  assert.deepEqual([error.code, error.message, error.detail, error.field], ['SMAP_UNKNOWN', `SMAP_UNKNOWN, at ${error.placeMessage}`, 2 ** 33 + 5, null]);
  const none = { field: null, column: null, entry: null };
  assert.deepEqual(error.place, { ...none, kind: 'segment', text: null, section: 4 * 2 ** 32 + NO_ID, line: 6 * 2 ** 32 + 5, segment: 2 ** 35 + 7, byte: 10 * 2 ** 32 + 9 });
});

test('half of a surrogate pair is refused, and not read as another character', () => {
  for (const text of ['\ud800', '\udc00x', `${TEXT}\ud83d`]) {
    assert.throws(() => new SourceMap(text), TypeError);
    assert.throws(() => SourceMap.fromTokens([], { names: [text] }), TypeError);
    assert.throws(() => SourceMap.fromTokens([], { sources: ['a', text, '\ud83d'] }), TypeError);
  }
  assert.throws(() => SourceMap.fromTokens([], { names: ['\ud83d', '\ude00'] }), TypeError);
  assert.deepEqual(new SourceMap(simple('', { file: '\\ud83d\\ude00' }).replaceAll('\\\\', '\\')).file, '😀');
});

test('a map as it is found', () => {
  const { map, mends } = SourceMap.found('\ufeff)]}\'\n{"version":"3","sources":["a",null],"mappings":"AAAA"}');
  assert.deepEqual(map.sources, ['a', '']);
  assert.deepEqual(
    mends.map(({ kind, section, number }) => [kind, section, number]),
    [
      ['BYTE_ORDER_MARK', null, 0],
      ['JSON_PREFIX', null, 0],
      ['VERSION', null, 0],
      ['NULL_SOURCE', null, 1],
    ],
  );
  assert.equal(mends[3].message, 'source 1 is null, and is read as an empty text');
  const url = `data:application/json;base64,${Buffer.from(simple('C,D')).toString('base64')}`;
  const found = SourceMap.found(url);
  assert.deepEqual(found.mends.map((it) => it.kind), ['DATA_URL', 'UNSORTED']);
  assert.deepEqual([...found.map.tokens()].filter((_, i) => i % 6 === 1), [0, 1]);
  assert.deepEqual(SourceMap.found(TEXT).mends, []);
  fails({ code: 'SMAP_JSON_READING', placeMessage: 'line 2, column 12 (byte 19)' }, () => SourceMap.found(')]}\'\n{\n "version": x}'));
  fails({ code: 'SMAP_JSON_SHAPE', placeMessage: 'entry 1 of sources' }, () => SourceMap.found('{"version":3,"sources":[null,1],"mappings":""}'));
  const sections = JSON.parse(INDEXED);
  sections.sections[1].map.sources = [null];
  assert.deepEqual(SourceMap.found(JSON.stringify(sections)).mends.map((it) => [it.kind, it.section]), [['NULL_SOURCE', 1]]);
});

test('on the thread pool', async () => {
  const bytes = Buffer.from(TEXT);
  const reading = [TEXT, bytes, ...Array.from({ length: 20 }, (_, i) => JSON.stringify(randomMap(i).json))].map((it) => SourceMap.read(it));
  bytes.fill(0);
  const maps = await Promise.all(reading);
  assert.deepEqual([maps[0].toJSON(), maps[1].toJSON()], [MAP, MAP]);
  for (let i = 0; i < 20; i++) assert.deepEqual([...maps[i + 2].tokens()], randomMap(i).tokens.flat());
  await assert.rejects(SourceMap.read(simple('D')), { placeMessage: 'line 0, segment 0 (byte 0): a column below 0' });
  await assert.rejects(SourceMap.read(simple('AAAA;AA')), { code: 'SMAP_BAD_SEGMENT_SIZE', detail: 2, placeMessage: 'line 1, segment 0 (byte 5)' });
  await assert.rejects(SourceMap.read(7), TypeError);
  await assert.rejects(SourceMap.read('\ud800'), TypeError);
});

test('mappings alone', () => {
  assert.deepEqual([...decodeMappings('AAAA,GAAIA,C', { names: 1, sources: 1 })], [0, 0, 0, 0, 0, NO_ID, 0, 3, 0, 4, 0, 0, 0, 4, 0, 4, NO_ID, NO_ID]);
  assert.deepEqual([...decodeMappings('+/////H')], [0, 4294967295, 0, 0, NO_ID, NO_ID]);
  assert.equal(SourceMap.fromMappings(';A;;C').counts.lines, 4);
  fails({ code: 'SMAP_BAD_SOURCE_REFERENCE', detail: 0 }, () => decodeMappings('AAAA', { sources: 0 }));
  fails({ code: 'SMAP_BAD_NAME_REFERENCE', detail: 0, placeMessage: 'line 1, segment 0 (byte 1)' }, () => decodeMappings(';AAAAA', { names: 0 }));
  const map = SourceMap.fromMappings('AAAA', { names: 0, sources: 1 });
  assert.deepEqual([map.isSorted, map.isSound], [true, false]);
});

test('the tokens of mappings, as long as one call takes them and longer', () => {
  for (const count of [1023, 1024, 1025, 3000]) {
    const tokens = decodeMappings('A,'.repeat(count), { names: 0, sources: 0 });
    assert.equal(tokens.length, 6 * count);
    assert.ok(tokens.every((word, i) => word === (i % 6 < 4 ? 0 : NO_ID)));
    assert.notEqual(tokens.buffer, decodeMappings('A').buffer);
  }
  assert.throws(() => decodeMappings('\ud800'), TypeError);
  assert.throws(() => decodeMappings('A', null), TypeError);
  const kept = decodeMappings('C');
  decodeMappings('E');
  assert.equal(kept[1], 1);
});

test('the tokens of mappings in one call, which makes no map', () => {
  const out = new Uint32Array(20).fill(9);
  const rows = [
    ['AAAA,GAAIA,C', [1, 1], 3, 1, [0, 0, 0, 0, 0, NO_ID, 0, 3, 0, 4, 0, 0, 0, 4, 0, 4, NO_ID, NO_ID]],
    ['E,D', [0, 0], 2, 0, [0, 2, 0, 0, NO_ID, NO_ID, 0, 1, 0, 0, NO_ID, NO_ID]],
    ['', [0, 0], 0, 1, []],
    [Buffer.from(';C'), [0, 0], 1, 1, [1, 1, 0, 0, NO_ID, NO_ID]],
    ['A,A,A,A,A', [0, 0], 5, 1, [0, 0, 0, 0, NO_ID, NO_ID, 0, 0, 0, 0, NO_ID, NO_ID, 0, 0, 0, 0, NO_ID, NO_ID]],
  ];
  for (const [mappings, limits, count, isSorted, expected] of rows) {
    out.fill(9);
    assert.equal(native.decodeTokens(mappings, ...limits, out), 0);
    assert.deepEqual([native.words[0], native.words[1]], [count, isSorted]);
    assert.deepEqual([...out], [...expected, ...new Array(20 - expected.length).fill(9)]);
  }
  assert.equal(native.decodeTokens('AAAA', 1, 0, out), constants.Code.BAD_SOURCE_REFERENCE);
  assert.equal(native.decodeTokens('AAAAA', 0, 1, out), constants.Code.BAD_NAME_REFERENCE);
  assert.deepEqual([native.fault[0], native.fault[2]], [constants.Code.BAD_NAME_REFERENCE, 0]);
  const shared = new Uint32Array(new SharedArrayBuffer(24));
  assert.equal(native.decodeTokens('C', 0, 0, shared), 0);
  assert.equal(shared[1], 1);
});

test('random maps', () => {
  for (let seed = 0; seed < 100; seed++) {
    const { tokens, json } = randomMap(seed);
    const map = new SourceMap(JSON.stringify(json));
    assert.deepEqual([...map.tokens()], tokens.flat(), `seed ${seed}`);
    assert.deepEqual(map.toJSON(), json);
    assert.equal(map.mappings, json.mappings);
    const made = SourceMap.fromTokens(flat(tokens), json);
    assert.equal(made.toString(), map.toString());
  }
});

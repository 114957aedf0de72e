'use strict';
// The module sourcemap-codec: values worked by hand, and the package where it is installed.

const test = require('node:test');
const assert = require('node:assert/strict');

const { SourceMap } = require('..');
const { decode, encode } = require('../compat/sourcemap-codec.js');
const { fails, random, randomMap, peer, needs, realMaps } = require('./support.js');

const theirs = peer('@jridgewell/sourcemap-codec');

// Texts and what they say, by the digits: A 0, C 1, D -1, E 2, gB 16, +/////D 2147483647, +/////H 4294967295.
const PAIRS = [
  ['', [[]]],
  [';', [[], []]],
  ['A', [[[0]]]],
  [';;A;', [[], [], [[0]], []]],
  ['AAEA,IAAIA;CAAD', [[[0, 0, 2, 0], [4, 0, 2, 4, 0]], [[1, 0, 2, 3]]]],
  ['gBCCCC,CDDDD', [[[16, 1, 1, 1, 1], [17, 0, 0, 0, 0]]]],
  ['+/////D', [[[2147483647]]]],
  ['+/////H', [[[4294967295]]]],
];

for (const [text, lines] of PAIRS) {
  test(`${JSON.stringify(text)} is ${JSON.stringify(lines)}`, () => {
    assert.deepEqual(decode(text), lines);
    assert.equal(encode(lines), text);
  });
}

test('nothing is written of no lines', () => {
  assert.equal(encode([]), '');
});

test('lines are sorted when read, and written as they stand', () => {
  assert.deepEqual(decode('IAAA,JAAC,AAAC;EAAA'), [[[0, 0, 0, 1], [0, 0, 0, 2], [4, 0, 0, 0]], [[2, 0, 0, 2]]]);
  assert.equal(encode([[[4, 0, 0, 0], [0, 0, 0, 1]]]), 'IAAA,JAAC');
});

test('what is no mappings is refused, with its place', () => {
  fails({ code: 'SMAP_BAD_SEGMENT_SIZE', placeMessage: 'line 1, segment 1 (byte 7)' }, () => decode('AAAA;A,AA'));
  fails({ code: 'SMAP_VLQ_LEFTOVER' }, () => decode('AAAg'));
  fails({ code: 'SMAP_BAD_SOURCE_REFERENCE' }, () => decode('ADAA'));
  assert.throws(() => encode([[[-1]]]), { name: 'RangeError', message: /Segment 0 of line 0 of the mappings has -1/ });
  assert.throws(() => encode([[[0, 0, 0, 0, 4294967295]]]), RangeError);
  assert.throws(() => encode([[[0, 0, 0]]]), { name: 'RangeError', message: /has 3 numbers/ });
  assert.throws(() => encode([[[0, 0, 0, 0, 0, 0]]]), RangeError);
  assert.throws(() => encode([[[0, 0, null, 0]]]), TypeError);
});

test('lines of the maps of the repository are what the library says of them', { skip: realMaps().length === 0 && 'the repository is not here' }, () => {
  for (const { path, bytes, refused } of realMaps()) {
    const lines = refused === null ? new SourceMap(bytes).mappings.split(';').slice(0, 50) : [];
    for (const line of lines) {
      let said = null;
      try {
        said = SourceMap.fromMappings(line).decodedMappings;
      } catch ({ code }) {
        fails({ code }, () => decode(line)); // (ids that count on from the line before)
      }
      if (said !== null) assert.deepEqual(decode(line), line === '' ? [[]] : said, path);
    }
  }
});

test('texts that are just short enough for one call, and just too long', () => {
  for (const units of [1, 2047, 2048, 2049, 2050, 4096]) {
    for (const [sign, count] of [[',', 1], [';', Math.ceil(units / 2)]]) {
      const text = `A${sign}`.repeat(units).slice(0, units);
      const lines = decode(text);
      const ends = sign === ';' && units % 2 === 0 ? 1 : 0;
      assert.equal(lines.length, count + ends, `${units}${sign}`);
      assert.deepEqual(lines.flat(), new Array(Math.ceil(units / 2)).fill([0]));
    }
  }
  fails({ code: 'SMAP_BAD_SEGMENT_SIZE', placeMessage: 'line 0, segment 0 (byte 0): a column below 0' }, () => decode('D'));
  assert.throws(() => decode('\ud800'), TypeError);
  assert.throws(() => decode(1), TypeError);
});

test('random mappings beside the package', needs('@jridgewell/sourcemap-codec', theirs), () => {
  for (let seed = 1; seed <= 100; seed++) {
    const { mappings } = randomMap(seed).json;
    const text = mappings + ';'.repeat(random(seed)(3));
    const lines = decode(text);
    assert.deepEqual(lines, theirs.decode(text));
    assert.equal(encode(lines), theirs.encode(lines));
  }
});

test('real mappings beside the package', needs('@jridgewell/sourcemap-codec', theirs), () => {
  for (const { bytes, refused } of realMaps()) {
    const { mappings } = JSON.parse(bytes);
    if (refused || mappings === undefined) continue;
    assert.deepEqual(decode(mappings), theirs.decode(mappings));
    assert.equal(encode(decode(mappings)), theirs.encode(theirs.decode(mappings)));
  }
});

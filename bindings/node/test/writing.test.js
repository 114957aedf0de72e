'use strict';
// Texts that are written, and what is read of codes and URLs.

const test = require('node:test');
const assert = require('node:assert/strict');

const { NO_ID, Language, SourceMap, decodeDataURL, sourceMappingURL } = require('..');
const { MAP, TEXT, flat, simple, fails, realMaps, peer, needs } = require('./support.js');

const codec = peer('@jridgewell/sourcemap-codec');
const EMPTY = SourceMap.fromTokens([]);

test('the JSON text, as a string, as bytes, as a value, as a URL', () => {
  const map = new SourceMap(TEXT);
  assert.deepEqual(JSON.parse(map.toString()), MAP);
  assert.equal(Buffer.from(map.toBytes()).toString(), map.toString());
  assert.ok(map.toBytes() instanceof Uint8Array);
  assert.equal(JSON.stringify({ map }), `{"map":${JSON.stringify(map.toJSON())}}`);
  assert.equal(decodeDataURL(map.toDataURL()), map.toString());
  assert.equal(EMPTY.toDataURL(), 'data:application/json;charset=utf-8;base64,eyJ2ZXJzaW9uIjozLCJuYW1lcyI6W10sInNvdXJjZXMiOltdLCJtYXBwaW5ncyI6IiJ9');
  assert.equal(map.mappings, MAP.mappings);
  assert.equal(EMPTY.mappings, '');
});

test('bytes outlive their map', () => {
  const content = 'größe '.repeat(50_000);
  let map = SourceMap.fromTokens([], { sources: ['a'], sourcesContent: [content] });
  const bytes = map.toBytes();
  map.free();
  map = null;
  assert.equal(JSON.parse(Buffer.from(bytes).toString()).sourcesContent[0], content);
  const copy = structuredClone(bytes);
  structuredClone(bytes.buffer, { transfer: bytes.buffer.byteLength === bytes.length ? [bytes.buffer] : [] });
  assert.equal(copy.length, Buffer.byteLength(content) + '{"version":3,"names":[],"sources":["a"],"sourcesContent":[""],"mappings":""}'.length);
});

test('a code beside its sources', () => {
  const lists = { sources: ['a.js'], sourcesContent: ['ab\ncd'] };
  const map = SourceMap.fromTokens(flat([[0, 0, 0, 0, 0, NO_ID], [1, 1, 1, 0, 0, NO_ID]]), lists);
  assert.equal(map.visualize('ab\ncd'), '- a.js\n(0:0) "ab\\n" --> (0:0) "ab\\n"\n(1:0) "cd" --> (1:1) "d"\n');
  assert.equal(map.visualize(Buffer.from('ab\ncd')), map.visualize('ab\ncd'));
  assert.equal(new SourceMap(simple('')).visualize('x'), '[no source contents]\n');
  assert.equal(EMPTY.visualizerURL('a'), 'https://evanw.github.io/source-map-visualization/#MQBhNTEAeyJ2ZXJzaW9uIjozLCJuYW1lcyI6W10sInNvdXJjZXMiOltdLCJtYXBwaW5ncyI6IiJ9');
  for (const call of ['visualize', 'visualizerURL']) fails({ code: 'SMAP_NOT_UTF8', detail: 1 }, () => map[call](Uint8Array.of(0x61, 0xff)));
});

test('what is not written', () => {
  const back = SourceMap.fromTokens(flat([[1, 0, 0, 0, NO_ID, NO_ID], [0, 0, 0, 0, NO_ID, NO_ID]]));
  for (const call of [() => back.toString(), () => back.toBytes(), () => back.toJSON(), () => back.toDataURL(), () => back.mappings, () => back.visualizerURL('')]) {
    fails({ code: 'SMAP_LINE_ORDER', detail: 1 }, call);
  }
});

test('texts of at most so many bytes', () => {
  const text = '{"version":3,"names":[],"sources":["ä.js"],"mappings":"AAAA"}';
  const map = new SourceMap(text);
  assert.deepEqual([map.toString({ limit: 62 }), map.toBytes({ limit: 62 }).length, map.toString({})], [text, 62, text]);
  assert.equal(map.toDataURL({ limit: 127 }), map.toDataURL());
  const offset = { line: 4294967295, column: 0 };
  const deep = new SourceMap(JSON.stringify({ version: 3, sections: [{ offset, map: JSON.parse(text) }] }));
  for (const [it, limit, url] of [[map, 61, 126], [deep, 1_000_000, 4294967294]]) {
    for (const call of [() => it.toString({ limit }), () => it.toBytes({ limit }), () => it.toDataURL({ limit: url })]) {
      fails({ code: 'SMAP_TOO_LARGE', detail: 0 }, call);
    }
  }
  for (const limit of [-1, 1.5, 2 ** 32]) assert.throws(() => map.toString({ limit }), RangeError);
  assert.throws(() => map.toBytes({ limit: '9' }), TypeError);
});

test('the URL that a code names', () => {
  assert.equal(sourceMappingURL('let a;\n//# sourceMappingURL=a.js.map\n'), 'a.js.map');
  assert.equal(sourceMappingURL(Buffer.from('let a;\n//# sourceMappingURL=größe.map')), 'größe.map');
  assert.equal(sourceMappingURL('a {}\n/*# sourceMappingURL=a.css.map */', Language.CSS), 'a.css.map');
  assert.deepEqual([sourceMappingURL('let a;'), sourceMappingURL('')], [null, null]);
  fails({ code: 'SMAP_BAD_OPTION' }, () => sourceMappingURL('', 2));
  fails({ code: 'SMAP_NOT_UTF8', detail: 1 }, () => sourceMappingURL(Uint8Array.of(0x61, 0xff)));
});

test('data URLs', () => {
  assert.equal(decodeDataURL('data:application/json;base64,e30='), '{}');
  assert.equal(decodeDataURL('data:application/json,%7B%22gr%C3%B6%C3%9Fe%22%7D'), '{"größe"}');
  assert.deepEqual([decodeDataURL('a.js.map'), decodeDataURL(Buffer.from('data:text/plain,a'))], [null, null]);
  fails({ code: 'SMAP_BAD_BASE64', detail: 1 }, () => decodeDataURL('data:application/json;base64,e?=='));
  fails({ code: 'SMAP_BAD_DATA_UTF8', detail: 1 }, () => decodeDataURL('data:application/json,a%FF'));
});

test('the maps of the repository, written and read again', { skip: realMaps().length === 0 && 'the repository is not here' }, () => {
  for (const { path, bytes, refused } of realMaps()) {
    if (refused !== null && refused !== 'Tokens are not in order of line and column') {
      assert.throws(() => new SourceMap(bytes), ({ message, placeMessage }) => message === (placeMessage ? `${refused}, at ${placeMessage}` : refused), path);
      continue;
    }
    const map = new SourceMap(bytes);
    const again = new SourceMap(map.toBytes());
    assert.deepEqual([...again.tokens()], [...map.tokens()], path);
    assert.equal(again.toString(), map.toString());
    assert.equal(SourceMap.fromTokens(map.tokens(), map.toJSON()).toString(), map.toString());
    const json = JSON.parse(bytes);
    const parts = json.sections?.map((it) => it.map) ?? [json];
    assert.deepEqual(map.sources, parts.flatMap((it) => it.sources));
    assert.deepEqual(map.names, parts.flatMap((it) => it.names ?? []));
  }
});

test('mappings as sourcemap-codec writes them', needs('@jridgewell/sourcemap-codec', codec), () => {
  for (const { bytes, refused } of realMaps()) {
    const json = JSON.parse(bytes);
    if (refused !== null || json.sections) continue;
    assert.equal(new SourceMap(bytes).mappings, codec.encode(codec.decode(json.mappings)).replace(/;+$/, ''));
  }
});

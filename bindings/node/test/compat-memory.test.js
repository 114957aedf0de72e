'use strict';
// What the drop-in modules make of the library for themselves: they free it, so that nothing waits for the collector.

const test = require('node:test');
const assert = require('node:assert/strict');

const native = require('../lib/native.js');
const { MAP, TEXT, simple, fails } = require('./support.js');
const codec = require('../compat/sourcemap-codec.js');
const gen = require('../compat/gen-mapping.js');
const remapping = require('../compat/remapping.js');
const { TraceMap, FlattenMap, ...tracing } = require('../compat/trace-mapping.js');
const { SourceMapConsumer, SourceMapGenerator } = require('../compat/source-map.js');

const isHandle = (it) => it !== null && typeof it === 'object' && !Array.isArray(it) && !ArrayBuffer.isView(it);

/** How many maps and builders a call makes, and how many of these it leaves. */
function held(run) {
  const calls = { ...native };
  const left = new Set();
  let made = 0;
  for (const [name, call] of Object.entries(calls).filter(([, it]) => typeof it === 'function')) {
    native[name] = (...words) => {
      const answer = call(...words);
      if (name === 'free') left.delete(words[0]);
      else if (isHandle(answer)) made = left.add(answer) && made + 1;
      return answer;
    };
  }
  try {
    run();
  } finally {
    Object.assign(native, calls);
  }
  return { made: made > 0, left: left.size };
}

const LONG = { ...MAP, mappings: MAP.mappings + ';'.repeat(3000) };
const LONG_TEXT = JSON.stringify(LONG);
const UNSORTED = simple('GAAA,DAAA');
const OUTER = simple('AAAA', { sources: ['b.js'] });
const USES = {
  decode: () => codec.decode(LONG.mappings),
  'decode of lines that are not sorted': () => codec.decode(JSON.parse(UNSORTED).mappings),
  'a lookup': () => tracing.originalPositionFor(new TraceMap(LONG_TEXT), { line: 1, column: 0 }),
  'ids out of range': () => tracing.decodedMappings(new TraceMap(simple('AEAA'))),
  'a map with sections': () => tracing.encodedMappings(FlattenMap({ version: 3, sections: [{ offset: { line: 0, column: 0 }, map: LONG }] })),
  'segments out of order': () => {
    const map = new gen.GenMapping();
    for (const line of [1, 0]) gen.addSegment(map, line, 0, 'a', 0, 0);
    gen.toEncodedMap(map);
  },
  'a map that goes on': () => gen.fromMap(LONG_TEXT),
  remapping: () => remapping(OUTER, (it) => (it === 'b.js' ? LONG_TEXT : null)),
  'remapping, exact': () => remapping(OUTER, (it) => (it === 'b.js' ? TEXT : null), { exact: true }),
  'a generator of a consumer that is destroyed': () => {
    const consumer = new SourceMapConsumer(LONG_TEXT);
    SourceMapGenerator.fromSourceMap(consumer).toString();
    consumer.destroy();
  },
  'a source that is listed twice': () => {
    const consumer = new SourceMapConsumer(simple('AAAA,CCAA', { sources: ['a', 'a'] }));
    consumer.originalPositionFor({ line: 1, column: 0 });
    consumer.destroy();
  },
  sections: () => {
    const consumer = new SourceMapConsumer({ version: 3, sections: [{ offset: { line: 0, column: 0 }, map: MAP }] });
    consumer.originalPositionFor({ line: 1, column: 0 });
    consumer.eachMapping(() => {});
    consumer.destroy();
  },
};

for (const [name, use] of Object.entries(USES)) {
  test(`${name}: nothing is left`, () => assert.deepEqual(held(use), { made: true, left: 0 }));
}

test('of short mappings nothing is made', () => {
  const use = () => {
    codec.decode(MAP.mappings);
    tracing.originalPositionFor(new TraceMap(TEXT), { line: 1, column: 0 });
    new SourceMapConsumer(TEXT).originalPositionFor({ line: 1, column: 0 });
    gen.fromMap(TEXT);
  };
  assert.deepEqual(held(use), { made: false, left: 0 });
});

for (const [name, text] of [['short', TEXT], ['long', LONG_TEXT]]) test(`a ${name} consumer that is destroyed answers no lookup, and may be destroyed again`, () => {
  const consumer = new SourceMapConsumer(text);
  assert.equal(consumer.originalPositionFor({ line: 1, column: 0 }).source, 'src/a.ts');
  consumer.destroy();
  consumer.destroy();
  fails({ code: 'SMAP_NULL_HANDLE' }, () => consumer.originalPositionFor({ line: 1, column: 0 }));
});

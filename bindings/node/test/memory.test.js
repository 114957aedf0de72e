'use strict';
// Memory: what the collector frees, and what it knows of. Each in a process of its own.

const test = require('node:test');
const assert = require('node:assert/strict');
const { execFileSync } = require('node:child_process');

const { isModule, sharing } = require('./support.js');

// Sanitizers keep freed memory for a while.
const isSanitized = process.env.JUNKETSCARP_SANITIZED !== undefined;

/** What a script in a new process says, which has the package as `library`. */
function run(script, ...options) {
  const whole = `const library = require(${JSON.stringify(require.resolve('..'))}); const { SourceMap, NO_ID } = library; ${script}`;
  return JSON.parse(execFileSync(process.execPath, [...options, '-e', whole], { encoding: 'utf8' }));
}

const PEAK = 'process.stdout.write(String(process.resourceUsage().maxRSS / 1024));';

test('10,000 maps, read and dropped in a loop without turns, stay under 200 MB', { skip: isSanitized }, () => {
  const peak = run(`
    const mappings = 'AAAA,IAAI'.padEnd(20_000, ',CAAC');
    const text = Buffer.from(JSON.stringify({ version: 3, sources: ['a'], sourcesContent: ['x'.repeat(20_000)], names: [], mappings }));
    for (let i = 0; i < 10_000; i++) new SourceMap(text).trace(0, 0);
    ${PEAK}`);
  assert.ok(peak < 200, `${peak} MB`);
});

test('so do small ones, clones, what maps are made of, and bytes', { skip: isSanitized }, () => {
  const peak = run(`
    const map = SourceMap.fromTokens(new Uint32Array(6 * 1000).map((_, i) => (i % 6 < 4 ? 0 : NO_ID)), { sources: ['a'], sourcesContent: ['x'.repeat(100_000)] });
    for (let i = 0; i < 10_000; i++) {
      const builder = new library.SourceMapBuilder();
      builder.addSource('a', 'x'.repeat(10_000));
      builder.addTokens(map.tokens());
      if (i % 3 === 0) builder.finish().compose(map);
      if (i % 3 === 1) map.clone().toBytes();
      if (i % 3 === 2) map.toString();
    }
    const few = map.tokens().subarray(0, 6 * 700);
    for (let i = 0; i < 40_000; i++) SourceMap.fromTokens(few, { sources: ['a'] });
    ${PEAK}`);
  assert.ok(peak < 200, `${peak} MB`);
});

test('of many maps, those that are left answer when others were collected, and are refused by nothing', () => {
  const said = run(`
    const of = (line) => SourceMap.fromTokens(Uint32Array.of(0, 0, line, 0, 0, NO_ID), { sources: ['a'] });
    let next = 1;
    const kept = new Map();
    const add = (count) => { for (let i = 0; i < count; i++, next++) kept.set(next, of(next)); };
    let wrong = 0;
    for (const [more, modulus] of [[3000, 3], [50, 2], [4000, 7], [0, 90]]) {
      add(more);
      for (const line of [...kept.keys()]) if (line % modulus !== 1) kept.delete(line);
      gc();
      for (const [line, map] of kept) if (map.trace(0, 0).line !== line || map.counts.tokens !== 1) wrong++;
    }
    process.stdout.write(JSON.stringify([kept.size > 3, wrong]));`, '--expose-gc');
  assert.deepEqual(said, [true, 0]);
});

test('what is freed is freed at once', { skip: isSanitized }, () => {
  const held = run(`
    const text = JSON.stringify({ version: 3, sources: ['a'], sourcesContent: ['x'.repeat(5_000_000)], names: [], mappings: '' });
    for (let i = 0; i < 80; i++) new SourceMap(text).free();
    const short = 'A,'.repeat(1000);
    for (let i = 0; i < 20_000; i++) library.decodeMappings(short);
    ${PEAK}`);
  assert.ok(held < 200, `${held} MB`);
});

test('large maps, some of which are freed, do not disturb the collector that they start', () => {
  const said = run(`
    const text = Buffer.from(JSON.stringify({ version: 3, sources: ['a'], names: [], mappings: 'AAAA'.padEnd(2_000_000, ',CAAC') }));
    for (let i = 0; i < 40; i++) {
      const map = new SourceMap(text);
      if (i % 2) map.free();
    }
    process.stdout.write('true');`);
  assert.equal(said, true);
});

test('a map that was freed, or selected and collected, leaves nothing that is used', () => {
  const said = run(
    `
    const maps = Array.from({ length: 3 }, () => new SourceMap('{"version":3,"sources":["a"],"names":[],"mappings":"AAAA"}'));
    maps[0].trace(0, 0);
    maps.length = 0;
    gc();
    setImmediate(() => {
      gc();
      const { words, trace } = require(${JSON.stringify(require.resolve('../lib/native.js'))});
      process.stdout.write(JSON.stringify([trace(), new SourceMap('{"version":3,"sources":["b"],"names":[],"mappings":"AAAA"}').trace(0, 0).source]));
    });`,
    '--expose-gc',
  );
  // (a module may still have the one that was selected, whose memory is its own)
  assert.deepEqual(said, [isModule ? said[0] : 100, 'b']);
});

test('the collector is not told of memory that was freed', () => {
  // It is told of 600 MB, and of each that it is freed: else it would collect each 64 MB.
  const majors = run(`
    let majors = 0;
    const observer = new PerformanceObserver((list) => (majors += list.getEntries().filter((it) => it.detail.kind === 4).length));
    observer.observe({ entryTypes: ['gc'] });
    const tokens = new Uint32Array(6 * 10_000);
    for (let i = 0; i < 1000; i++) {
      const builder = new library.SourceMapBuilder();
      builder.addTokens(tokens);
      builder.finish().free();
      const join = new library.ConcatSourceMapBuilder();
      const map = SourceMap.fromTokens(tokens.fill(NO_ID));
      join.addSourceMap(map, 0);
      map.free();
      join.free();
    }
    setTimeout(() => process.stdout.write(String(majors)), 50);`);
  assert.ok(majors < 4, `${majors}`);
});

test('what was shared and freed is collected', sharing, async () => {
  const said = run(
    `
    const them = Array.from({ length: 10 }, () => new SourceMap('{"version":3,"sources":[],"names":[],"mappings":""}'));
    const weak = them.map((map) => (map.share(), new WeakRef(map)));
    for (const map of them.slice(5)) map.free();
    them.length = 0;
    setImmediate(() => {
      gc();
      setImmediate(() => process.stdout.write(JSON.stringify(weak.map((it) => it.deref() !== undefined))));
    });`,
    '--expose-gc',
  );
  assert.deepEqual(said, [true, true, true, true, true, false, false, false, false, false]);
});

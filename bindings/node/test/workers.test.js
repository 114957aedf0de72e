'use strict';
// Threads: eight over maps of their own and over maps that are shared.

const test = require('node:test');
const assert = require('node:assert/strict');
const { once } = require('node:events');
const { join } = require('node:path');
const { Worker } = require('node:worker_threads');

const { SourceMap } = require('..');
const { digest } = require('./worker.js');
const { TEXT, sharing, fails, random, randomMap, positionsOf, flat } = require('./support.js');

const FILE = join(__dirname, 'worker.js');
const { tokens, json } = randomMap(7);
const text = JSON.stringify(json);
const positions = flat(positionsOf(tokens, random(1), 500));
const rounds = 20;

/** A worker that has taken the maps of these numbers, and ends with its test. */
async function started(t, numbers) {
  const worker = new Worker(FILE, { workerData: { numbers, text, positions, rounds } });
  t.after(() => worker.terminate());
  assert.deepEqual(await once(worker, 'message'), ['taken']);
  return worker;
}

async function answered(worker) {
  worker.postMessage('go');
  // (both are waited for at once: a message may come in the very turn of the loop in which the worker ends)
  const [[answers]] = await Promise.all([once(worker, 'message'), once(worker, 'exit')]);
  return answers;
}

test('eight threads, over maps of their own and over one that is shared', sharing, async (t) => {
  const map = new SourceMap(text);
  map.indexSources();
  const expected = digest(map, positions, rounds);
  const number = map.share();
  assert.equal(map.share(), number);
  const workers = await Promise.all(Array.from({ length: 8 }, () => started(t, [number, number])));
  const all = workers.map(answered);
  assert.equal(digest(map, positions, rounds), expected);
  for (const answers of await Promise.all(all)) assert.deepEqual(answers, [expected, expected, expected]);
  assert.equal(digest(map, positions, rounds), expected);
  map.free();
});

test('a shared map lives as long as anyone has it', sharing, async (t) => {
  const map = new SourceMap(text);
  map.indexSources();
  const number = map.share();
  const here = SourceMap.shared(number);
  const expected = digest(here, positions, rounds);
  const worker = await started(t, [number]);
  map.free();
  fails({ code: 'SMAP_NULL_HANDLE' }, () => map.trace(0, 0));
  here.free();
  const again = SourceMap.shared(number);
  assert.deepEqual((await answered(worker))[1], expected);
  assert.equal(digest(again, positions, rounds), expected);
  again.free();
  fails({ code: 'SMAP_NO_ENTRY' }, () => SourceMap.shared(number));
  fails({ code: 'SMAP_NO_ENTRY' }, () => SourceMap.shared(0));
});

test('a shared map takes no change', sharing, () => {
  const map = new SourceMap(TEXT);
  const here = SourceMap.shared(map.share());
  const calls = [
    (it) => it.setFile('a'),
    (it) => it.setSourceRoot('a'),
    (it) => it.setDebugId('a'),
    (it) => it.setSources([]),
    (it) => it.setSourcesContent([]),
    (it) => it.setIgnoreList([]),
    (it) => it.applySourceRoot(),
    (it) => it.sort(),
    (it) => it.simplify(),
    (it) => it.indexSources(),
  ];
  for (const it of [map, here]) {
    for (const call of calls) fails({ code: 'SMAP_SHARED', detail: 0, place: null, message: 'The map is shared with other threads, and takes no change' }, () => call(it));
    fails({ code: 'SMAP_NO_INDEX' }, () => it.generated(0, 0, 0));
    fails({ code: 'SMAP_NO_INDEX' }, () => it.allGenerated(0, 0, 0));
    assert.equal(it.trace(0, 4).source, 'a.ts');
    const copy = it.clone();
    copy.sort();
    assert.equal(copy.generated(0, 0, 0).index, 0);
  }
  map.free();
  assert.equal(here.toString(), new SourceMap(TEXT).toString());
});

test('a thread that ends lets go of its maps, and of what it is reading', sharing, async (t) => {
  const script = `
    const { SourceMap } = require(${JSON.stringify(require.resolve('..'))});
    const { parentPort } = require('node:worker_threads');
    const map = new SourceMap(${JSON.stringify(text)});
    for (let i = 0; i < 20; i++) SourceMap.read(${JSON.stringify(text)}.padEnd(1_000_000, ' '));
    parentPort.postMessage(map.share());
    setInterval(() => map.trace(0, 0), 1);`;
  const worker = new Worker(script, { eval: true });
  t.after(() => worker.terminate());
  const [number] = await once(worker, 'message');
  const taken = SourceMap.shared(number);
  await worker.terminate();
  assert.equal(taken.toString(), new SourceMap(text).toString());
  taken.free();
  fails({ code: 'SMAP_NO_ENTRY' }, () => SourceMap.shared(number));
});

test('the collector keeps a map that is shared', sharing, async () => {
  const numbers = Array.from({ length: 5 }, () => new SourceMap(text).share());
  for (let i = 0; i < 200; i++) new SourceMap(JSON.stringify({ ...json, sourcesContent: ['x'.repeat(1_000_000)] }));
  await new Promise(setImmediate);
  for (const number of numbers) SourceMap.shared(number).free();
});

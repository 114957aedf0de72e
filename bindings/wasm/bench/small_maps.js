'use strict';
// node small_maps.js ADDON MODULE [MAPS]   small maps over the WebAssembly module beside the addon: what each of 12,000 (or MAPS) maps of
// 200 bytes costs that are kept, in memory (of the process, and that which its engine counts as external) and time; and the time of one
// that is read, asked once and dropped, or freed, and of a consumer of the drop-in for source-map. The least of some processes each.
// ADDON and MODULE are files that give what native.d.ts says, as bindings/node/build and ./build wasm leave them.

const { execFileSync } = require('node:child_process');
const { join } = require('node:path');

const PACKAGE = join(__dirname, '../../node');
const PROCESSES = 3;

/** A map of 200 bytes of text. */
function text() {
  const value = { version: 3, sources: ['src/module.ts'], names: ['value'], mappings: 'AAAAA' };
  const room = 200 - JSON.stringify(value).length;
  value.mappings += ';AACA,IAAI,CAAC'.repeat(20).slice(0, room).replace(/[;,][^;,]*$/, '');
  return JSON.stringify(value).padEnd(200);
}

const turn = () => new Promise((resolve) => setTimeout(resolve, 5));

function askAndFree(SourceMap, given) {
  const map = new SourceMap(given);
  map.trace(0, 0);
  map.free();
}

const held = () => {
  gc();
  gc();
  const { rss, external } = process.memoryUsage();
  return rss + external;
};

function timed(count, run) {
  const begin = process.hrtime.bigint();
  for (let i = 0; i < count; i++) run();
  return Number(process.hrtime.bigint() - begin) / 1000 / count;
}

/** What this process measures: bytes and microseconds. */
async function measure(count) {
  const { SourceMap } = require(PACKAGE);
  const { SourceMapConsumer } = require(join(PACKAGE, 'compat/source-map.js'));
  const given = text();
  const ask = () => new SourceMap(given).trace(0, 0);
  // (so that code which the engine compiles once is not counted)
  for (let i = 0; i < 5000; i++) askAndFree(SourceMap, given);
  await turn();
  const kept = [];
  const before = held();
  const keeping = timed(count, () => kept.push(new SourceMap(given)));
  const bytes = (held() - before) / count;
  kept.length = 0;
  gc();
  await turn();
  const least = { 'read, asked and dropped': Infinity, 'read, asked and freed': Infinity, 'consumer, asked and dropped': Infinity };
  const ways = [
    ask,
    () => askAndFree(SourceMap, given),
    () => new SourceMapConsumer(given).originalPositionFor({ line: 1, column: 0 }),
  ];
  for (let round = 0; round < 20; round++) {
    for (const [i, name] of Object.keys(least).entries()) least[name] = Math.min(least[name], timed(1000, ways[i]));
    await turn();
  }
  console.log(JSON.stringify({ 'kept: bytes': bytes, 'kept: µs': keeping, ...least }));
}

function leastOf(path, count) {
  const env = { ...process.env, JUNKETSCARP_ADDON: path };
  const all = Array.from({ length: PROCESSES }, () =>
    JSON.parse(execFileSync(process.execPath, ['--expose-gc', __filename, '--measure', String(count)], { env, encoding: 'utf8' })),
  );
  return Object.fromEntries(Object.keys(all[0]).map((it) => [it, Math.min(...all.map((one) => one[it]))]));
}

function main([addon, module_, count = '12000']) {
  const [ofAddon, ofModule] = [addon, module_].map((it) => leastOf(it, Number(count)));
  for (const it of Object.keys(ofAddon)) {
    console.log(`${it}\taddon ${ofAddon[it].toFixed(2)}\tmodule ${ofModule[it].toFixed(2)}\t${(ofModule[it] / ofAddon[it]).toFixed(2)}`);
  }
}

if (process.argv[2] === '--measure') measure(Number(process.argv[3]));
else main(process.argv.slice(2));

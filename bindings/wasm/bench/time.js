'use strict';
// node --expose-gc time.js ADDON MODULE [MAP..]: the package over the WebAssembly module beside the package over the addon, and
// @jridgewell/trace-mapping where it is installed, in one process and in turns: the least of some rounds, and ratios of these. ADDON and
// MODULE are files that give what native.d.ts says, as bindings/node/build and ./build wasm leave them. At last the memory of a thousand
// small maps that are kept, in a process of its own (of Linux).

const { execFileSync } = require('node:child_process');
const { readFileSync } = require('node:fs');
const { join } = require('node:path');

const LIB = join(__dirname, '../../node/lib');
const ROUNDS = 12;
const ASKED = 100_000;

/** The package over this file. */
function packageOver(path) {
  process.env.JUNKETSCARP_ADDON = path;
  for (const it of Object.keys(require.cache)) if (it.startsWith(LIB)) delete require.cache[it];
  return require(LIB);
}

function peer() {
  try {
    return require('@jridgewell/trace-mapping');
  } catch {
    return null;
  }
}

function once(run) {
  const begin = process.hrtime.bigint();
  run();
  return Number(process.hrtime.bigint() - begin) / 1e6;
}

/** The least time of each way, in milliseconds; they take turns. */
function inTurns(ways) {
  const least = Object.fromEntries(Object.keys(ways).map((it) => [it, Infinity]));
  for (let round = 0; round < ROUNDS; round++) {
    for (const [name, run] of Object.entries(ways)) {
      globalThis.gc?.();
      least[name] = Math.min(least[name], once(run));
    }
  }
  return least;
}

/** What each library does once of each kind; `own` is one of ours. */
function own({ SourceMap }, bytes, positions) {
  const map = new SourceMap(bytes);
  const text = bytes.toString();
  const out = new Uint32Array(4 * positions.length);
  const input = new SourceMap('{"version":3,"sources":["a.ts"],"names":[],"mappings":"AAAA"}');
  return {
    'read, bytes': () => new SourceMap(bytes).trace(0, 0),
    'read, a string': () => new SourceMap(text).trace(0, 0),
    'read and free': () => new SourceMap(bytes).free(),
    'lookups at once': () => map.traceAll(positions, 0, out),
    'lookups one by one': () => {
      for (let i = 0; i < positions.length; i += 2) map.trace(positions[i], positions[i + 1]);
    },
    write: () => map.toString(),
    remap: () => map.remap([[map.sources[0] ?? '', input]]),
  };
}

function theirs(tracing, bytes, positions) {
  const text = bytes.toString();
  const read = () => {
    const map = new tracing.TraceMap(text);
    tracing.traceSegment(map, 0, 0);
    return map;
  };
  const map = read();
  const each = (ask) => () => {
    for (let i = 0; i < positions.length; i += 2) ask(positions[i], positions[i + 1]);
  };
  return {
    'read, bytes': read,
    'read, a string': read,
    'lookups at once': each((line, column) => tracing.traceSegment(map, line, column)),
    'lookups one by one': each((line, column) => tracing.originalPositionFor(map, { line: line + 1, column })),
    write: () => JSON.stringify(tracing.encodedMap(map)),
  };
}

function compare(name, bytes, positions, sides) {
  for (const kind of Object.keys(sides.module)) {
    const ways = Object.fromEntries(Object.entries(sides).filter(([, it]) => it[kind]).map(([side, it]) => [side, it[kind]]));
    const least = inTurns(ways);
    const others = Object.keys(least).filter((it) => it !== 'module').map((it) => `${(least.module / least[it]).toFixed(2)} of ${it}`);
    console.log(`${name} (${bytes.length} bytes)\t${kind}\t${least.module.toFixed(3)} ms\t${others.join('\t')}`);
  }
}

const KEEPS = `
  const { SourceMap } = require(${JSON.stringify(LIB)});
  const text = Buffer.from(process.argv[1]);
  const kept = [new SourceMap(text)];
  gc();
  const before = process.memoryUsage().rss;
  for (let i = 0; i < 1000; i++) kept.push(new SourceMap(text));
  gc();
  console.log(Math.round((process.memoryUsage().rss - before) / 1000 / 1000), kept.length);`;

function main([addon, module_, ...paths]) {
  const packages = { addon: packageOver(addon), module: packageOver(module_) };
  const { maps, positions } = require('../../node/bench/maps.js');
  const tracing = peer();
  const all = maps(paths);
  for (const [name, bytes] of all) {
    const asked = positions(bytes, ASKED);
    const sides = { module: own(packages.module, bytes, asked), addon: own(packages.addon, bytes, asked) };
    if (tracing) sides['trace-mapping'] = theirs(tracing, bytes, asked);
    compare(name, bytes, asked, sides);
  }
  const small = (paths.length > 0 ? readFileSync(paths[0]) : all[0][1]).toString();
  for (const path of [module_, addon]) {
    const env = { ...process.env, JUNKETSCARP_ADDON: path };
    const said = execFileSync(process.execPath, ['--expose-gc', '-e', KEEPS, small.length < 100_000 ? small : '{"version":3,"sources":[],"names":[],"mappings":""}'], { env, encoding: 'utf8' });
    console.log(`a small map kept, ${path === addon ? 'addon' : 'module'}: ${said.split(' ')[0]} kB`);
  }
}

main(process.argv.slice(2));

'use strict';
// node compat.js [MAP..]: what the drop-in modules take beside the packages in whose places they are, in one process, and the ratio. A
// cell is the least of many rounds, in which both take turns. Needs the packages (NODE_PATH=/usr/share/nodejs for Debian's).

const { SourceMap, NO_ID } = require('..');
const { maps, positions } = require('./maps.js');

const OURS = {
  tracing: require('../compat/trace-mapping.js'),
  generating: require('../compat/gen-mapping.js'),
  codec: require('../compat/sourcemap-codec.js'),
  remapping: require('../compat/remapping.js'),
};
const THEIRS = {
  tracing: require('@jridgewell/trace-mapping'),
  generating: require('@jridgewell/gen-mapping'),
  codec: require('@jridgewell/sourcemap-codec'),
  remapping: require('@ampproject/remapping'),
};

const LOOKUPS = 100_000;
const ROUNDS = Number(process.env.ROUNDS ?? 7); // at least
const ENOUGH = 400; // milliseconds, for what is compiled while it runs

/** Prints the least milliseconds of both, by turns. `before` makes what `run` is timed with. */
function compare(map, job, run, before = () => undefined) {
  const sides = [OURS, THEIRS].map((api) => ({ api, least: Infinity, prepare: before(api) }));
  const begin = Date.now();
  for (let round = 0; round < ROUNDS || Date.now() - begin < ENOUGH; round++) {
    for (const side of sides) {
      const prepared = typeof side.prepare === 'function' ? side.prepare() : side.prepare;
      const start = process.hrtime.bigint();
      run(side.api, prepared);
      side.least = Math.min(side.least, Number(process.hrtime.bigint() - start) / 1e6);
    }
  }
  const [ours, theirs] = sides.map(({ least }) => least);
  console.log([map, job, ours.toFixed(3), theirs.toFixed(3), (ours / theirs).toFixed(2)].join('\t'));
}

// A loop of its own for each side, so that no types of the other disturb it.
const LOOP = 'for (let i = 0; i < at.length; i += 2) call(map, at[i], at[i + 1]);';

function loops(wrap) {
  const made = new Map();
  return (api) => {
    if (!made.has(api)) made.set(api, new Function('map', 'at', 'call', LOOP));
    return { loop: made.get(api), call: wrap(api) };
  };
}

function lookups(name, text) {
  const at = positions(text, LOOKUPS);
  const ways = {
    'traceSegment, 100,000': ({ tracing }) => (map, line, column) => tracing.traceSegment(map, line, column),
    'originalPositionFor, 100,000': ({ tracing }) => (map, line, column) =>
      tracing.originalPositionFor(map, { line: line + 1, column }),
  };
  for (const [job, wrap] of Object.entries(ways)) {
    const each = loops(wrap);
    compare(
      name,
      job,
      (api, { map, loop, call }) => loop(map, at, call),
      (api) => ({ map: new api.tracing.TraceMap(text), ...each(api) }),
    );
  }
}

function reverse(name, text) {
  const { sources, mappings } = JSON.parse(text);
  const tokens = SourceMap.fromMappings(mappings).tokens();
  const line = tokens[2] + 1;
  compare(
    name,
    'first generatedPositionFor',
    ({ tracing }, map) => tracing.generatedPositionFor(map, { source: sources[0], line, column: 3 }),
    ({ tracing }) =>
      () => {
        const map = new tracing.TraceMap(text);
        tracing.originalPositionFor(map, { line: 1, column: 0 });
        return map;
      },
  );
}

function forms(name, text) {
  const { mappings } = JSON.parse(text);
  const first = { line: 1, column: 0 };
  compare(name, 'read, and asked once', ({ tracing }) => tracing.originalPositionFor(new tracing.TraceMap(text), first));
  compare(name, 'decode', ({ codec }) => codec.decode(mappings));
  compare(name, 'encode', ({ codec }, lines) => codec.encode(lines), ({ codec }) => codec.decode(mappings));
}

/** Adds all mappings of a map, in order. */
function addAll({ generating }, { tokens, sources }) {
  const map = new generating.GenMapping();
  for (let at = 0; at < tokens.length; at += 6) {
    if (tokens[at + 4] === NO_ID) generating.maybeAddSegment(map, tokens[at], tokens[at + 1]);
    else generating.maybeAddSegment(map, tokens[at], tokens[at + 1], sources[tokens[at + 4]], tokens[at + 2], tokens[at + 3]);
  }
  return generating.toEncodedMap(map);
}

function generating(name, text) {
  const { sources, mappings } = JSON.parse(text);
  compare(name, 'maybeAddSegment of all, toEncodedMap', addAll, () => ({ tokens: SourceMap.fromMappings(mappings).tokens(), sources }));
}

// ---- remapping ----

/** The text of a map of a code that another tool made of the code of a map: two of three of its tokens, on other lines. */
function stepOver(text, perLine) {
  const below = SourceMap.fromMappings(JSON.parse(text).mappings).tokens();
  const tokens = [];
  for (let i = 0, count = 0; i < below.length / 6; i++) {
    if (i % 3 === 2) continue;
    const [line, column] = [Math.floor(count / perLine), 3 * (count % perLine)];
    tokens.push(line, column, below[6 * i], below[6 * i + 1], 0, count % 5 === 0 ? count % 300 : NO_ID);
    count++;
  }
  const names = Array.from({ length: 300 }, (_, i) => `short${i}`);
  return SourceMap.fromTokens(Uint32Array.from(tokens), { sources: ['step.js'], names }).toString();
}

/** The text of a map of a bundle of the codes of these maps, one below the other, and the maps by the paths of its sources. */
function bundleOf(texts) {
  const tokens = [];
  let first = 0;
  texts.forEach((text, id) => {
    const below = SourceMap.fromMappings(JSON.parse(text).mappings).tokens();
    for (let at = 0; at < below.length; at += 6) tokens.push(first + below[at], below[at + 1], below[at], below[at + 1], id, NO_ID);
    first += below.at(-6) + 2;
  });
  const sources = texts.map((_, id) => `module${id}.js`);
  return [SourceMap.fromTokens(Uint32Array.from(tokens), { sources }).toString(), new Map(sources.map((it, i) => [it, texts[i]]))];
}

function remap(name, input, loader) {
  compare(name, 'remapping, text to text', ({ remapping }) => remapping(input, loader).toString());
  const value = Array.isArray(input) ? input.map((text) => JSON.parse(text)) : JSON.parse(input);
  compare(name, 'remapping, value to value', ({ remapping }) => remapping(value, loader));
}

function main(paths) {
  console.log(['map', 'job', 'ours (ms)', 'theirs (ms)', 'ratio'].join('\t'));
  const all = maps(paths).map(([name, bytes]) => [name, bytes.toString()]);
  for (const [name, text] of all) {
    for (const measure of [forms, lookups, reverse, generating]) measure(name, text);
    remap(`${name}, minified`, [stepOver(text, 1e9), text], () => null);
    remap(`${name}, three steps`, [stepOver(stepOver(text, 40), 1e9), stepOver(text, 40), text], () => null);
  }
  const [bundle, modules] = bundleOf(new Array(100).fill(all[0][1]));
  remap(`bundle of 100 times ${all[0][0]}`, bundle, (file) => modules.get(file) ?? null);
}

main(process.argv.slice(2));

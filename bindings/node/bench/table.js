'use strict';
// node table.js   prints what the package takes for small things and for large ones as a ratio to what a package of npm takes for the same,
// below 1 if ours is quicker, with the goal behind each; a row that misses its goal ends in `!`. A ratio is that of the least of many
// rounds, in which both take turns. Needs @jridgewell/trace-mapping, gen-mapping and sourcemap-codec, @ampproject/remapping and source-map
// (NODE_PATH=/usr/share/nodejs for Debian's), and an idle machine. JUNKETSCARP_ADDON names the addon, or a module (wasm/node.js).
// ROWS=WORDS prints the rows alone that have these words, and MILLISECONDS=NUMBER is how long each cell is measured.

const { SourceMap, NO_ID, decodeMappings, encodeMappings } = require('..');
const { made } = require('./maps.js');
const ours = {
  tracing: require('../compat/trace-mapping.js'),
  generating: require('../compat/gen-mapping.js'),
  codec: require('../compat/sourcemap-codec.js'),
  remapping: require('../compat/remapping.js'),
  mozilla: require('../compat/source-map.js'),
};
const theirs = {
  tracing: require('@jridgewell/trace-mapping'),
  generating: require('@jridgewell/gen-mapping'),
  codec: require('@jridgewell/sourcemap-codec'),
  remapping: require('@ampproject/remapping'),
  mozilla: require('source-map'),
};

const MILLISECONDS = Number(process.env.MILLISECONDS ?? 500);
const ROUNDS = 9; // at least
const SAMPLE = 0.5; // milliseconds at least of what is timed at once
const LOOKUPS = 1000;

// ---- maps ----

/** A map of so many tokens, with contents of so many bytes, and positions in it. */
function sample(name, count, lines, bytes) {
  const sources = Math.max(1, Math.min(40, Math.floor(count / 500)));
  const names = Math.max(1, Math.min(1000, Math.floor(count / 12)));
  const { next, tokens, value } = made(count, lines, sources, names, bytes);
  const at = new Uint32Array(2 * LOOKUPS);
  for (let i = 0; i < LOOKUPS; i++) {
    const token = 6 * next(count);
    at[2 * i] = tokens[token];
    at[2 * i + 1] = tokens[token + 1] + next(6);
  }
  return { name, tokens, value, text: JSON.stringify(value), at };
}

const MAPS = [
  sample('2 segments', 2, 1, 0),
  sample('10', 10, 3, 0),
  sample('90 kB', 13_712, 400, 0),
  sample('1 MB with contents', 40_000, 1200, 700_000),
];

// ---- rows: what is done, by us and by the other, with what each has prepared ----

const inner = (map) => ({ ...map.value, sources: map.value.sources.map((it) => `deep/${it}`) });
const outer = (map) => ({ ...map.value, sources: ['inner.js'], sourcesContent: undefined, names: [], mappings: encodeMappings(aimed(map.tokens)) });
/** Tokens that lead to the places of the tokens themselves, as those of a step that moves nothing. */
function aimed(tokens) {
  const out = tokens.slice();
  for (let at = 0; at < out.length; at += 6) out.set([tokens[at], tokens[at + 1], 0, NO_ID], at + 2);
  return out;
}

/** Each position, by a function of its own, so that no other's types disturb it. Answers that nobody keeps would not be made at all. */
const each = () => new Function('look', 'at', 'kept', 'for (let i = 0; i < at.length; i += 2) kept[0] = look(at[i], at[i + 1]);');
function oneByOne(lookOf) {
  return (map) => {
    const [look, run] = [lookOf(map), each()];
    return () => run(look, map.at, [null]);
  };
}
const traceOf = ({ tracing }) => (map) => {
  const it = new tracing.TraceMap(map.text);
  return (line, column) => tracing.originalPositionFor(it, { line: line + 1, column });
};
const consumerOf = ({ mozilla }) => (map) => {
  const it = new mozilla.SourceMapConsumer(map.text);
  return (line, column) => it.originalPositionFor({ line: line + 1, column });
};
const first = (key) => ({ tracing }) => (map) => () => tracing.originalPositionFor(new tracing.TraceMap(map[key]), { line: 1, column: 0 });
const consumed = ({ mozilla }) => (map) => () => new mozilla.SourceMapConsumer(map.text).originalPositionFor({ line: 1, column: 0 });
const decoded = ({ codec }) => (map) => () => codec.decode(map.value.mappings);
const encoded = ({ codec }) => (map) => {
  const lines = theirs.codec.decode(map.value.mappings);
  return () => codec.encode(lines);
};

function added({ generating }) {
  return ({ tokens, value }) => () => {
    const it = new generating.GenMapping({ file: 'out.js' });
    for (let at = 0; at < tokens.length; at += 6) {
      const name = tokens[at + 5] === NO_ID ? undefined : value.names[tokens[at + 5]];
      generating.addSegment(it, tokens[at], tokens[at + 1], value.sources[tokens[at + 4]], tokens[at + 2], tokens[at + 3], name);
    }
    return JSON.stringify(generating.toEncodedMap(it));
  };
}

function generated({ mozilla }) {
  return ({ tokens, value }) => () => {
    const it = new mozilla.SourceMapGenerator({ file: 'out.js' });
    for (let at = 0; at < tokens.length; at += 6) {
      it.addMapping({
        generated: { line: tokens[at] + 1, column: tokens[at + 1] },
        original: { line: tokens[at + 2] + 1, column: tokens[at + 3] },
        source: value.sources[tokens[at + 4]],
        name: tokens[at + 5] === NO_ID ? null : value.names[tokens[at + 5]],
      });
    }
    return it.toString();
  };
}

function remapped({ remapping }) {
  return (map) => {
    const [over, under] = [outer(map), inner(map)];
    return () => remapping(over, (it) => (it === 'inner.js' ? under : null)).toString();
  };
}

const ROWS = [
  ['class, from a text, asked once', ({ text }) => () => new SourceMap(text).trace(0, 0), first('text')(theirs), [0.9, 0.6, 0.5, 0.5]],
  ['class, from a value, asked once', ({ value }) => () => new SourceMap(value).trace(0, 0), first('value')(theirs), []],
  ['trace-mapping, from a text, asked once', first('text')(ours), first('text')(theirs), [1.2, 1.0, 0.6, 0.6]],
  ['trace-mapping, from a value, asked once', first('value')(ours), first('value')(theirs), [1.2, 1.2, 0.5, 0.5]],
  ['source-map consumer, asked once', consumed(ours), consumed(theirs), [1, 1, 1, 1]],
  ['decode, words', ({ value }) => () => decodeMappings(value.mappings), decoded(theirs), []],
  ['decode', decoded(ours), decoded(theirs), [3, 1.2, 0.8, 0.7]],
  ['encode', encoded(ours), encoded(theirs), [1.2, 1.2, 1.2, 1.2]],
  ['1,000 lookups, class', oneByOne((map) => {
    const it = new SourceMap(map.text);
    return (line, column) => it.trace(line, column);
  }), oneByOne(traceOf(theirs)), [0.9, 0.9, 0.9, 0.9]],
  ['1,000 lookups, trace-mapping', oneByOne(traceOf(ours)), oneByOne(traceOf(theirs)), [1.2, 1.2, 1.2, 1.2]],
  ['1,000 lookups, traceAll', (map) => {
    const it = new SourceMap(map.text);
    const out = new Uint32Array(8 * LOOKUPS);
    return () => it.traceAll(map.at, 0, out);
  }, oneByOne(traceOf(theirs)), []],
  ['1,000 lookups, source-map', oneByOne(consumerOf(ours)), oneByOne(consumerOf(theirs)), [1.2, 1.2, 1.2, 1.2]],
  ['gen-mapping, add and write', added(ours), added(theirs), [1.2, 1.2, 1.2, 1.2]],
  ['source-map generator, add and write', generated(ours), generated(theirs), [1, 1, 1, 1]],
  ['remapping, one inner map', remapped(ours), remapped(theirs), [1.2, 1.2, 1.2, 1.2]],
  ['class, remap and write', (map) => {
    const [over, under] = [new SourceMap(outer(map)), new SourceMap(inner(map))];
    return () => over.remap({ 'inner.js': under }).toString();
  }, remapped(theirs), []],
];

// ---- times ----

function timeOf(run, times) {
  const start = process.hrtime.bigint();
  for (let i = 0; i < times; i++) run();
  return Number(process.hrtime.bigint() - start) / 1e6;
}

/** How often both are run at once, so that the clock tells it. */
function timesFor(runs) {
  let times = 1;
  while (Math.min(...runs.map((run) => timeOf(run, times))) < SAMPLE) times *= 2;
  return times;
}

/** The ratio of the least times of two, by turns. */
function ratioOf(runs) {
  const times = timesFor(runs);
  const least = runs.map(() => Infinity);
  const begin = Date.now();
  for (let round = 0; round < ROUNDS || Date.now() - begin < MILLISECONDS; round++) {
    runs.forEach((run, i) => (least[i] = Math.min(least[i], timeOf(run, times))));
  }
  return least[0] / least[1];
}

function cellOf(ratio, goal) {
  const misses = goal !== undefined && ratio > goal;
  return { text: goal === undefined ? ratio.toFixed(2) : `${ratio.toFixed(2)} (${goal})${misses ? ' !' : ''}`, misses };
}

function main() {
  const wanted = ROWS.filter(([what]) => what.includes(process.env.ROWS ?? ''));
  const width = Math.max(...wanted.map(([what]) => what.length));
  const cells = (list) => list.map((it) => it.padEnd(20)).join('');
  console.log(`Node ${process.version}, ${process.platform}-${process.arch}, ${SourceMap.backend}; ratio to the peer (goal)`);
  console.log(`${''.padEnd(width)}  ${cells(MAPS.map(({ name }) => name))}`);
  let missed = 0;
  for (const [what, mine, other, goals] of wanted) {
    const row = MAPS.map((map, i) => cellOf(ratioOf([mine(map), other(map)]), goals[i]));
    missed += row.filter(({ misses }) => misses).length;
    console.log(`${what.padEnd(width)}  ${cells(row.map(({ text }) => text))}`);
  }
  console.log(`${missed} goals missed`);
}

main();

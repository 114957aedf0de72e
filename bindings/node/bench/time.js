'use strict';
// node time.js [MAP..]: what calls take beside the peers, in one process, and the ratio to trace-mapping's time. A cell is the least of many
// rounds, in which all take turns. Needs the peers @jridgewell/trace-mapping and source-map (NODE_PATH=/usr/share/nodejs for Debian's).

const { SourceMap } = require('..');
const { maps, positions } = require('./maps.js');
const tracing = require('@jridgewell/trace-mapping');
const mozilla = require('source-map');

const LOOKUPS = 100_000;
const ROUNDS = Number(process.env.ROUNDS ?? 7);

/** The least of the milliseconds that each of these takes, by turns. */
function least(ways, rounds = ROUNDS) {
  const times = Object.fromEntries(Object.keys(ways).map((name) => [name, Infinity]));
  for (let round = 0; round < rounds; round++) {
    for (const [name, way] of Object.entries(ways)) {
      const prepared = way.before?.();
      const start = process.hrtime.bigint();
      (way.run ?? way)(prepared);
      times[name] = Math.min(times[name], Number(process.hrtime.bigint() - start) / 1e6);
    }
  }
  return times;
}

/** Each position, as a function of its own, so that no peer's types disturb another's. */
const each = new Function('look', 'at', 'let sum = 0; for (let i = 0; i < at.length; i += 2) if (look(at[i], at[i + 1]) !== null) sum++; return sum;');
const fresh = () => new Function(`return ${each}`)();

function reading(bytes) {
  const text = bytes.toString();
  return {
    'JSON.parse alone': () => JSON.parse(text),
    'trace-mapping': () => tracing.originalPositionFor(new tracing.TraceMap(text), { line: 1, column: 0 }),
    'source-map': () => new mozilla.SourceMapConsumer(text).originalPositionFor({ line: 1, column: 0 }),
    'ours, bytes': () => {
      const map = new SourceMap(bytes);
      map.trace(0, 0);
      map.free();
    },
    'ours, a string': () => {
      const map = new SourceMap(text);
      map.trace(0, 0);
      map.free();
    },
  };
}

function lookups(bytes) {
  const map = new SourceMap(bytes);
  const trace = new tracing.TraceMap(bytes.toString());
  const consumer = new mozilla.SourceMapConsumer(bytes.toString());
  const at = positions(bytes, LOOKUPS);
  const eight = new Uint32Array(8 * LOOKUPS);
  const indices = new Uint32Array(LOOKUPS);
  const one = (look) => {
    const run = fresh();
    return () => run(look, at);
  };
  return {
    'trace-mapping': one((line, column) => tracing.originalPositionFor(trace, { line: line + 1, column })),
    'trace-mapping, traceSegment': one((line, column) => tracing.traceSegment(trace, line, column)),
    'source-map': one((line, column) => consumer.originalPositionFor({ line: line + 1, column })),
    'ours, trace': one((line, column) => map.trace(line, column)),
    'ours, traceToken': one((line, column) => map.traceToken(line, column)),
    'ours, traceAll': () => map.traceAll(at, 0, eight),
    'ours, findAll': () => map.findAll(at, 0, indices),
  };
}

function reverse(bytes) {
  const text = bytes.toString();
  const { sources } = new SourceMap(bytes);
  return {
    'trace-mapping': {
      before: () => new tracing.TraceMap(text),
      run: (trace) => tracing.generatedPositionFor(trace, { source: sources[0], line: 1, column: 0 }),
    },
    'ours, generated': { before: () => new SourceMap(bytes), run: (map) => map.generated(0, 0, 0) },
  };
}

function show(name, what, times, unit, scale) {
  const base = times['trace-mapping'];
  for (const [who, time] of Object.entries(times)) {
    console.log(`${name}\t${what}\t${who}\t${(time * scale).toPrecision(3)} ${unit}\t${(time / base).toFixed(2)}`);
  }
}

for (const [name, bytes] of maps(process.argv.slice(2))) {
  const isSmall = bytes.length < 100_000;
  show(name, 'read, first lookup', least(reading(bytes), isSmall ? 30 * ROUNDS : ROUNDS), 'ms', 1);
  show(name, 'a lookup', least(lookups(bytes)), 'ns', 1e6 / LOOKUPS);
  show(name, 'first reverse lookup', least(reverse(bytes), isSmall ? 10 * ROUNDS : Math.min(ROUNDS, 3)), 'ms', 1);
}

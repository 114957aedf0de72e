// Asks packages of npm, and Node itself, for tools/compare/run, tools/figures/performance.py and tools/check/sourcemap:
//
//   node peers.js WORD [ROUNDS] < JSON
//
// Each WORD below says what it reads and what it writes, both JSON. Positions are from 0. The packages are those of Debian's
// node-source-map and node-ampproject-remapping (for a Node that is not Debian's: NODE_PATH=/usr/share/nodejs).
const { readFileSync } = require("fs");
const { SourceMap } = require("module");

/** A map whose sources have ids for paths, since some peers rewrite paths. */
const withIds = (map) => ({ ...map, sources: map.sources.map((_, id) => `s${id}`), sourceRoot: undefined });
const idOf = (source) => Number(source.replace(/^.*s/, ""));
/** What a package answers: null, or [source, line, column, name]. */
const originalBy = (source) => (it) => (it.source == null ? null : [source(it.source), it.line - 1, it.column, it.name ?? null]);
/** The same of Node's own. */
const entryBy = (source) => (it) =>
  it.originalSource == null ? null : [source(it.originalSource), it.originalLine, it.originalColumn, it.name ?? null];

/** The best nanoseconds of so many rounds. */
function best(rounds, run) {
  let least = Infinity;
  for (let round = 0; round < rounds; round++) {
    const start = process.hrtime.bigint();
    run();
    least = Math.min(least, Number(process.hrtime.bigint() - start));
  }
  return least;
}

/** What each peer finds at positions of a map. */
function traced(positions, { trace, consumer, own, source }) {
  const { SourceMapConsumer } = require("source-map");
  const { originalPositionFor } = require("@jridgewell/trace-mapping");
  const bias = SourceMapConsumer.GREATEST_LOWER_BOUND;
  const original = originalBy(source);
  return {
    "trace-mapping": positions.map(([line, column]) => original(originalPositionFor(trace, { line: line + 1, column }))),
    "node-source-map": positions.map(([line, column]) => original(consumer.originalPositionFor({ line: line + 1, column, bias }))),
    node: positions.map(([line, column]) => entryBy(source)(own.findEntry(line, column))),
  };
}

/** Reads {map, positions}, and writes for each peer its answers: null, or [source id, line, column, name]. */
function traces({ map, positions }) {
  const { SourceMapConsumer } = require("source-map");
  const { TraceMap } = require("@jridgewell/trace-mapping");
  const given = withIds(map);
  return traced(positions, { trace: new TraceMap(given), consumer: new SourceMapConsumer(given), own: new SourceMap(given), source: idOf });
}

/** Reads {map, positions} of an indexed map, and writes {answers, mappings, remapped}: the answers as above, with paths; for each package
 *  the list of all mappings, as [line, column, source, line, column, name]; and the map that remapping makes of it, or its error. */
function indexed({ map, positions }) {
  const { SourceMapConsumer } = require("source-map");
  const { AnyMap, eachMapping } = require("@jridgewell/trace-mapping");
  const remapping = require("@ampproject/remapping");
  const trace = new AnyMap(map);
  const consumer = new SourceMapConsumer(map);
  const listed = (it) => [it.generatedLine - 1, it.generatedColumn,
    ...(it.source == null ? [null, null, null, null] : [it.source, it.originalLine - 1, it.originalColumn, it.name ?? null])];
  const mappings = { "trace-mapping": [], "node-source-map": [] };
  eachMapping(trace, (it) => mappings["trace-mapping"].push(listed(it)));
  consumer.eachMapping((it) => mappings["node-source-map"].push(listed(it)));
  let remapped;
  try {
    remapped = remapping(map, () => null).toString();
  } catch (error) {
    remapped = String(error);
  }
  return { answers: traced(positions, { trace, consumer, own: new SourceMap(map), source: (path) => path }), mappings, remapped };
}

/** Reads a list of {map, back, forward}: maps, and for each original positions [source id, line, column] and generated ones [line,
 *  column]. Writes for each map, for each package, answers to its calls: to lookups back a list of generated positions, to others null or
 *  [source id, line, column, name]. GREATEST is the bias GREATEST_LOWER_BOUND, LEAST is LEAST_UPPER_BOUND. */
const lookups = (asked) => asked.map(lookedUp);

function lookedUp({ map, back, forward }) {
  const { SourceMapConsumer } = require("source-map");
  const { TraceMap, GREATEST_LOWER_BOUND, LEAST_UPPER_BOUND, ...tracing } = require("@jridgewell/trace-mapping");
  const biases = {
    GREATEST: [GREATEST_LOWER_BOUND, SourceMapConsumer.GREATEST_LOWER_BOUND],
    LEAST: [LEAST_UPPER_BOUND, SourceMapConsumer.LEAST_UPPER_BOUND],
  };
  const places = (them) => them.filter((it) => it.line != null).map((it) => [it.line - 1, it.column]);
  const original = originalBy(idOf);
  const given = withIds(map);
  const [trace, consumer] = [new TraceMap(given), new SourceMapConsumer(given)];
  const asked = back.map(([source, line, column]) => ({ source: `s${source}`, line: line + 1, column }));
  const positions = forward.map(([line, column]) => ({ line: line + 1, column }));
  const found = { "trace-mapping": {}, "node-source-map": {} };
  for (const [name, [one, other]] of Object.entries(biases)) {
    found["trace-mapping"][`generated ${name}`] = asked.map((it) => places([tracing.generatedPositionFor(trace, { ...it, bias: one })]));
    found["trace-mapping"][`all ${name}`] = asked.map((it) => places(tracing.allGeneratedPositionsFor(trace, { ...it, bias: one })));
    found["trace-mapping"][`original ${name}`] = positions.map((it) => original(tracing.originalPositionFor(trace, { ...it, bias: one })));
    found["node-source-map"][`generated ${name}`] = asked.map((it) => places([consumer.generatedPositionFor({ ...it, bias: other })]));
    found["node-source-map"][`original ${name}`] = positions.map((it) => original(consumer.originalPositionFor({ ...it, bias: other })));
  }
  // This one knows no bias.
  found["node-source-map"]["all LEAST"] = asked.map((it) => places(consumer.allGeneratedPositionsFor(it)));
  return found;
}

/** Reads {map, inputs, rounds}: JSON texts of a map and of those of its sources, by name. Writes {version, remapped, whole, alone}: the
 *  version of @ampproject/remapping, the remapped map as JSON text, and the best milliseconds of so many rounds, from JSON texts to a JSON
 *  text, and from decoded maps to one. */
function remap({ map, inputs, rounds }) {
  const remapping = require("@ampproject/remapping");
  const { version } = require("@ampproject/remapping/package.json");
  const { TraceMap, decodedMappings } = require("@jridgewell/trace-mapping");
  const decoded = (text) => {
    const read = new TraceMap(text);
    decodedMappings(read);
    return read;
  };
  const remapped = (map, inputs, options) => remapping(map, (source) => inputs[source] ?? null, options);
  const read = decoded(map);
  const readInputs = Object.fromEntries(Object.entries(inputs).map(([source, text]) => [source, decoded(text)]));
  return {
    version,
    remapped: remapped(map, inputs).toString(),
    whole: best(rounds, () => remapped(map, inputs).toString()) / 1e6,
    alone: best(rounds, () => remapped(read, readInputs, { decodedMappings: true })) / 1e6,
  };
}

/** Reads a map, and writes {version, index, back}: the version of @jridgewell/trace-mapping, and the best nanoseconds of ROUNDS for its first
 *  lookup from an original position once the mappings are decoded, which makes its index, and for 100,000 further ones, each at the place
 *  of a token or up to three columns behind. */
function reverse(map, rounds) {
  const { TraceMap, decodedMappings, generatedPositionFor } = require("@jridgewell/trace-mapping");
  const { version } = require("@jridgewell/trace-mapping/package.json");
  const given = { ...withIds(map), sourcesContent: undefined };
  const mappings = decodedMappings(new TraceMap(given));
  const tokens = mappings.flat().filter((it) => it.length > 1);
  let seed = 1;
  const below = (n) => {
    seed = (seed * 48271) % 2147483647;
    return seed % n;
  };
  const places = Array.from({ length: 100_000 }, () => tokens[below(tokens.length)]).map(([, id, line, column]) => ({
    source: `s${id}`,
    line: line + 1,
    column: column + below(4),
  }));
  const least = { index: Infinity, back: Infinity };
  let sum = 0;
  for (let round = 0; round < rounds; round++) {
    const trace = new TraceMap({ ...given, mappings });
    least.index = Math.min(least.index, best(1, () => (sum += generatedPositionFor(trace, places[0]).line)));
    least.back = Math.min(least.back, best(1, () => (sum += places.reduce((lines, place) => lines + generatedPositionFor(trace, place).line, 0))));
  }
  return { version, ...least, sum };
}

const [word, rounds] = process.argv.slice(2);
const calls = { traces, indexed, lookups, remap, reverse };
process.stdout.write(JSON.stringify(calls[word](JSON.parse(readFileSync(0, "utf8")), Number(rounds))));

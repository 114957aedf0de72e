'use strict';
// node source-map.js [MAP..]: what calls of the API of source-map take beside source-map 0.6 itself, in one process: milliseconds, the
// least of some rounds, in which both take turns, and the ratio. Needs source-map (NODE_PATH=/usr/share/nodejs for Debian's).

const { maps, positions } = require('./maps.js');
const ours = require('../compat/source-map.js');
const theirs = require('source-map');

const LOOKUPS = 20_000;
const ROUNDS = Number(process.env.ROUNDS ?? 3);

function timeOf(job) {
  const prepared = job.before?.();
  const start = process.hrtime.bigint();
  job.run(prepared);
  return Number(process.hrtime.bigint() - start) / 1e6;
}

/** Prints the times of a job for each of the two libraries. */
function compare(map, what, jobOf) {
  const jobs = [ours, theirs].map(jobOf);
  const least = [Infinity, Infinity];
  for (let round = 0; round < ROUNDS; round++) {
    jobs.forEach((job, i) => (least[i] = Math.min(least[i], timeOf(job))));
  }
  const [mine, yours] = least;
  console.log(`${map}\t${what}\t${mine.toFixed(2)}\t${yours.toFixed(2)}\t${(mine / yours).toFixed(3)}`);
}

/** Questions for original positions, made from the answers for generated ones. */
function originals(consumer, at) {
  const found = [];
  for (let i = 0; i < at.length; i += 2) {
    const { source, line, column } = consumer.originalPositionFor({ line: at[i] + 1, column: at[i + 1] });
    if (source !== null) found.push({ source, line, column });
  }
  return found;
}

function lookups(map, text, at) {
  const generated = Array.from({ length: at.length / 2 }, (_, i) => ({ line: at[2 * i] + 1, column: at[2 * i + 1] }));
  const original = originals(new ours.SourceMapConsumer(text), at);
  const asked = (questions, method) => (library) => {
    const consumer = new library.SourceMapConsumer(text);
    consumer[method](questions[0]);
    return { run: () => questions.forEach((question) => consumer[method](question)) };
  };
  compare(map, `${LOOKUPS} originalPositionFor`, asked(generated, 'originalPositionFor'));
  compare(map, `${original.length} generatedPositionFor`, asked(original, 'generatedPositionFor'));
  compare(map, 'read, first generatedPositionFor', (library) => ({
    run: () => new library.SourceMapConsumer(text).generatedPositionFor(original[0]),
  }));
}

function reading(map, text) {
  compare(map, 'read, first originalPositionFor', (library) => ({
    run: () => new library.SourceMapConsumer(text).originalPositionFor({ line: 1, column: 0 }),
  }));
  const walked = (order) => (library) => {
    const consumer = new library.SourceMapConsumer(text);
    let count = 0;
    return { run: () => consumer.eachMapping(() => count++, null, order) };
  };
  compare(map, 'eachMapping', walked(1));
  compare(map, 'eachMapping, by original position', walked(2));
}

function mappingsOf(text) {
  const mappings = [];
  new ours.SourceMapConsumer(text).eachMapping(({ source, generatedLine, generatedColumn, originalLine, originalColumn, name }) => {
    const generated = { line: generatedLine, column: generatedColumn };
    const original = { line: originalLine, column: originalColumn };
    mappings.push(source === null ? { generated } : { generated, original, source, name });
  });
  return mappings;
}

/** The same in an order that is always the same one. */
function shuffled(list) {
  const mixed = list.slice();
  let seed = 1;
  for (let i = mixed.length - 1; i > 0; i--) {
    seed = (Math.imul(seed, 1664525) + 1013904223) >>> 0;
    const other = seed % (i + 1);
    [mixed[i], mixed[other]] = [mixed[other], mixed[i]];
  }
  return mixed;
}

function writing(map, text) {
  const mappings = mappingsOf(text);
  const filled = (library) => {
    const generator = new library.SourceMapGenerator();
    for (const mapping of mappings) generator.addMapping(mapping);
    return generator;
  };
  compare(map, 'addMapping, all', (library) => ({ run: () => filled(library) }));
  compare(map, 'toString of a generator', (library) => ({ before: () => filled(library), run: (it) => it.toString() }));
  const mixed = shuffled(mappings);
  compare(map, 'addMapping in any order, toString', (library) => ({
    run: () => {
      const generator = new library.SourceMapGenerator();
      for (const mapping of mixed) generator.addMapping(mapping);
      generator.toString();
    },
  }));
}

/** A code that has columns for all mappings of a map. */
function codeFor(mappings) {
  const widths = [];
  for (const { generated } of mappings) widths[generated.line - 1] = generated.column + 4;
  return Array.from(widths, (width) => 'x'.repeat(width ?? 0)).join('\n');
}

function nodes(map, text) {
  const code = codeFor(mappingsOf(text));
  const cut = (library) => library.SourceNode.fromStringWithSourceMap(code, new library.SourceMapConsumer(text));
  compare(map, 'fromStringWithSourceMap', (library) => ({ run: () => cut(library) }));
  compare(map, 'toStringWithSourceMap, toString', (library) => {
    const node = cut(library);
    return { run: () => node.toStringWithSourceMap().map.toString() };
  });
}

console.log('map\tjob\tours ms\tsource-map ms\tratio');
for (const [map, bytes] of maps(process.argv.slice(2))) {
  const text = bytes.toString();
  reading(map, text);
  lookups(map, text, positions(bytes, LOOKUPS));
  writing(map, text);
  nodes(map, text);
}

'use strict';
// A thread of the tests of workers: looks positions up in maps of its own, and in those that are shared, and says a digest of all answers.

const { parentPort, workerData } = require('node:worker_threads');
const { SourceMap } = require('..');

/** A number of all that a map answers. */
function digest(map, positions, rounds) {
  let sum = 0;
  const add = (it) => (sum = (sum * 31 + it) >>> 0);
  for (let round = 0; round < rounds; round++) {
    for (let i = 0; i < positions.length; i += 2) {
      const found = map.trace(positions[i], positions[i + 1]);
      add(found === null ? 1 : found.line * 7 + found.column + found.source.length + (found.name?.length ?? 0));
    }
    map.findAll(positions).forEach(add);
    map.traceAll(positions).forEach(add);
    map.allGenerated(0, round, 0, 3).forEach(add);
    add(map.toString().length + map.names.length + map.tokens().length);
    add(map.clone().simplify() ?? 0);
  }
  return sum;
}

if (parentPort !== null) {
  const { numbers, text, positions, rounds } = workerData;
  const own = new SourceMap(text);
  const maps = [own, ...numbers.map((it) => SourceMap.shared(it))];
  parentPort.postMessage('taken');
  parentPort.once('message', () => {
    parentPort.postMessage(maps.map((map) => digest(map, positions, rounds)));
    maps.forEach((map) => map.free());
  });
}

module.exports = { digest };

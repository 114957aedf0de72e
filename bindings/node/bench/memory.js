'use strict';
// node --expose-gc memory.js [MAP..]: what a map holds beside the peers, after it was read from a file and asked once: megabytes of the
// process more than before, and at most; each in a process of its own. Needs /proc of Linux, and the peers of time.js.

const { execFileSync } = require('node:child_process');
const { mkdtempSync, readFileSync, rmSync, writeFileSync } = require('node:fs');
const { tmpdir } = require('node:os');
const { join } = require('node:path');

const WAYS = {
  'trace-mapping': () => {
    const tracing = require('@jridgewell/trace-mapping');
    return (path) => {
      const map = new tracing.TraceMap(readFileSync(path, 'utf8'));
      tracing.originalPositionFor(map, { line: 1, column: 0 });
      return map;
    };
  },
  'source-map': () => {
    const mozilla = require('source-map');
    return (path) => {
      const map = new mozilla.SourceMapConsumer(readFileSync(path, 'utf8'));
      map.originalPositionFor({ line: 1, column: 0 });
      return map;
    };
  },
  'ours, bytes': () => ours(undefined),
  'ours, a string': () => ours('utf8'),
};

function ours(encoding) {
  const { SourceMap } = require('..');
  return (path) => {
    const map = new SourceMap(readFileSync(path, encoding));
    map.trace(0, 0);
    return map;
  };
}

function resident() {
  const status = readFileSync('/proc/self/status', 'utf8');
  return ['VmRSS', 'VmHWM'].map((it) => Number(status.match(new RegExp(`${it}:\\s+(\\d+)`))[1]) / 1024);
}

/** Says what one way takes, in this process. */
function measure(who, path) {
  const read = WAYS[who]();
  gc();
  const [before] = resident();
  const map = read(path);
  gc();
  gc();
  const [after, most] = resident();
  console.log(JSON.stringify([after - before, most - before, Boolean(map)]));
}

function compare(name, path) {
  let base;
  for (const who of Object.keys(WAYS)) {
    const [held, most] = JSON.parse(execFileSync(process.execPath, ['--expose-gc', __filename, '--measure', who, path]));
    base ??= held;
    console.log(`${name}\t${who}\t${held.toFixed(1)} MB\t${most.toFixed(1)} MB at most\t${(held / base).toFixed(2)}`);
  }
}

function main() {
  const { maps } = require('./maps.js');
  const room = mkdtempSync(join(tmpdir(), 'maps-'));
  for (const [name, bytes] of maps(process.argv.slice(2))) {
    const path = join(room, 'it.map');
    writeFileSync(path, bytes);
    compare(name, path);
  }
  rmSync(room, { recursive: true });
}

if (process.argv[2] === '--measure') measure(process.argv[3], process.argv[4]);
else main();

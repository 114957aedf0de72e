'use strict';
// node register.js [FUNCTIONS]: the first and the hundredth stack trace of a bundle that is made here, and the memory of the process, with
// junketscarp/register beside --enable-source-maps and beside no maps. A cell is the least of some runs, each in a process of its own.

const { execFileSync } = require('node:child_process');
const { mkdtempSync, rmSync, writeFileSync } = require('node:fs');
const { tmpdir } = require('node:os');
const { join } = require('node:path');

const { encodeMappings, NO_ID } = require('..');

const RUNS = Number(process.env.RUNS ?? 5);
const SOURCES = 200;

/** A function as it is bundled, and the columns of it that have a token. */
const bodyOf = (i) =>
  `function f${i}(first, second) { const sum = first + second; if (sum < 0) throw new Error("f${i}"); return sum * ${i}; }`;
const COLUMNS = [0, 9, 20, 27, 36, 42, 48, 56, 64, 71, 76, 86, 96];

const MAIN = `
function measured(count) {
  let error;
  let text;
  const start = process.hrtime.bigint();
  for (let i = 0; i < count; i++) {
    error = (() => { try { f7(-1, 0); } catch (caught) { return caught; } })();
    text = error.stack;
  }
  return [Number(process.hrtime.bigint() - start) / 1e6 / count, text];
}
const [first, text] = measured(1);
const [later] = measured(100);
console.log(JSON.stringify({ first, later, resident: process.memoryUsage().rss / 2 ** 20, frame: text.split("\\n")[1].trim() }));
`;

/** Writes a bundle of so many functions, one on a line, and its map with the contents of the sources. */
function write(folder, count) {
  const tokens = new Uint32Array(6 * COLUMNS.length * count);
  let at = 0;
  for (let i = 0; i < count; i++) {
    const source = Math.floor((i * SOURCES) / count);
    COLUMNS.forEach((column, k) => {
      tokens.set([i, column, 2 * i + Math.floor(k / 7), column + 2, source, k === 1 ? i % 1000 : NO_ID], at);
      at += 6;
    });
  }
  const bodies = Array.from({ length: count }, (_, i) => bodyOf(i));
  const map = {
    version: 3,
    sources: Array.from({ length: SOURCES }, (_, i) => `src/module${i}.ts`),
    sourcesContent: Array.from({ length: SOURCES }, () => bodies.slice(0, count / SOURCES).join('\n')),
    names: Array.from({ length: 1000 }, (_, i) => `name${i}`),
    mappings: encodeMappings(tokens),
  };
  const text = JSON.stringify(map);
  writeFileSync(join(folder, 'bundle.js'), `${bodies.join('\n')}\n${MAIN}\n//# source${''}MappingURL=bundle.js.map\n`);
  writeFileSync(join(folder, 'bundle.js.map'), text);
  console.log(`map of ${(text.length / 2 ** 20).toFixed(1)} MB, ${(tokens.length / 6).toLocaleString('en')} tokens`);
}

function least(folder, options) {
  const runs = Array.from({ length: RUNS }, () =>
    JSON.parse(execFileSync(process.execPath, [...options, join(folder, 'bundle.js')], { encoding: 'utf8' })),
  );
  const of = (name) => Math.min(...runs.map((run) => run[name]));
  return { first: of('first'), later: of('later'), resident: of('resident'), frame: runs[0].frame };
}

const folder = mkdtempSync(join(tmpdir(), 'bundle-'));
try {
  write(folder, Number(process.argv[2] ?? 60_000));
  console.log('way\tfirst ms\tlater ms\tresident MB\tframe');
  const ways = { 'no maps': [], '--enable-source-maps': ['--enable-source-maps'], register: ['-r', join(__dirname, '../register.js')] };
  for (const [way, options] of Object.entries(ways)) {
    const { first, later, resident, frame } = least(folder, options);
    console.log(`${way}\t${first.toFixed(1)}\t${later.toFixed(3)}\t${resident.toFixed(0)}\t${frame.replace(folder, '')}`);
  }
} finally {
  rmSync(folder, { recursive: true });
}

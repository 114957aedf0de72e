'use strict';
// node soak.js MINUTES [SEED]: a resolver under random maps, sizes, traces at once and faults, for so long.
//
// Traces of random frames are resolved at once, over a folder with compiled maps beside and over a store that answers late, never, or by an
// error, while new maps are put in place of old ones. Each map names its number and version as its source, so that each answer can be told
// to be right, and no older than the resolver may hold it. It ends with status 1 if a frame is lost or wrong, if what is held passes its
// limits, or if memory grows.

const fs = require('node:fs');
const { join } = require('node:path');
const { tmpdir } = require('node:os');

const { BESIDE, Reason, Resolver, TooLargeError } = require('../lib/resolver.js');
const { replaceFile } = require('../lib/resolver/stores.js');
const { random } = require('../test/random.js');

const [MAPS, LINES, HELD] = [60, 40, 0.2];
/** For how many seconds a version may be answered with once another one is in its place. */
const SLACK = HELD + 4;
const LIMITS = { traceBytes: 20_000, frames: 200, seconds: 5, heldBytes: 400_000, heldMaps: 25, heldMissing: 10, heldSeconds: HELD, heldContextBytes: 200_000 }; // prettier-ignore
const SECONDS = 60 * Number(process.argv[2]);
const next = random(Number(process.argv[3] ?? 1));
const now = () => performance.now() / 1000;
const sleep = (milliseconds) => new Promise((resolve) => setTimeout(resolve, milliseconds));

const room = fs.mkdtempSync(join(tmpdir(), 'junketscarp-'));
process.once('exit', () => fs.rmSync(room, { recursive: true }));
const replaced = Array.from({ length: MAPS }, () => new Map());
const current = new Array(MAPS).fill(0);
const faults = [];
const done = { traces: 0, frames: 0, resolved: 0 };

/** A new version of a map: generated line L, column 2 C is line L + C of its source, column C. All versions have as many bytes. */
function put(k) {
  const version = current[k] + 1;
  const lines = Array.from({ length: LINES }, (_, line) => (line === 0 ? 'AAAA' : 'AAvCxC') + ',EACC'.repeat(LINES));
  const sources = [`${k}-${String(version).padStart(9, '0')}.ts`];
  const value = { version: 3, sources, names: [], sourcesContent: ['x\n'.repeat(50 * (k % 9))], mappings: lines.join(';') };
  replaceFile(join(room, `${k}.js.map`), JSON.stringify(value), 0o644, Date.now() / 1000);
  replaced[k].set(current[k], now());
  current[k] = version;
}

function change() {
  const k = next(MAPS);
  const compiled = join(room, `${k}.js.map.smc`);
  if (next(10) < 7) put(k);
  else if (next(2) === 0) fs.rmSync(join(room, `${k}.js.map`), { force: true });
  else if (fs.existsSync(compiled)) replaceFile(compiled, fs.readFileSync(compiled).subarray(next(99)), 0o644, Date.now() / 1000);
}

/** A store that answers late, never, or by an error. */
const late = {
  async get(name) {
    const kind = next(1000);
    if (kind < 10) throw new Error('a fault of the soak');
    if (next(5000) === 0) return new Promise(() => {});
    if (kind < 300) await sleep(next(5));
    return fs.promises.readFile(join(room, name)).catch((error) => (error.code === 'ENOENT' ? null : Promise.reject(error)));
  },
};
const ALLOWED = [Reason.STORE, Reason.NOT_THERE, Reason.TIME];

/** Whether an answer is that of a version that was there, or may still be held. */
function isRight({ frame, source, line, column, reason }, k, start) {
  if (reason !== null) return ALLOWED.includes(reason);
  const said = /^(\d+)-(\d+)\.ts$/.exec(source);
  const at = Math.min((frame.column - 1) >> 1, LINES);
  if (said === null || Number(said[1]) !== k || line !== frame.line - 1 + at || column !== at) return false;
  const gone = replaced[k].get(Number(said[2]));
  return gone === undefined ? Number(said[2]) <= current[k] : gone > start - SLACK;
}

async function trace(resolver) {
  const count = [1, 5, 30, 250, 2000][next(5)];
  const frames = Array.from({ length: count }, () => [next(MAPS), 1 + next(LINES), 1 + next(3 * LINES)]);
  const text = `Error: x\n${frames.map(([k, line, column]) => `    at f (http://h/${k}.js:${line}:${column})\n`).join('')}`;
  const start = now();
  let found;
  try {
    found = await resolver.resolveAsync(text);
  } catch (error) {
    if (!(error instanceof TooLargeError && text.length > LIMITS.traceBytes)) faults.push(`refused: ${error.stack}`);
    return;
  }
  if (found.length !== count) faults.push(`${count} frames, ${found.length} answers`);
  const wrong = found.filter((it, n) => (n < LIMITS.frames ? !isRight(it, frames[n][0], start) : it.reason !== Reason.FRAMES));
  faults.push(...wrong.map((it) => `wrong: ${JSON.stringify(it)}`));
  await resolver.contextAsync(found[next(count)], 2);
  done.traces++;
  done.frames += count;
  done.resolved += found.filter(({ reason }) => reason === null).length;
}

async function main() {
  for (let k = 0; k < MAPS; k++) put(k);
  const resolvers = [new Resolver(room, 'http://h/', { cache: BESIDE, limits: LIMITS }), new Resolver(late, 'http://h/', { limits: LIMITS })];
  const end = now() + SECONDS;
  const repeat = async (call) => {
    while (now() < end && faults.length === 0) {
      await call();
      await sleep(0);
    }
  };
  const used = [];
  const check = async () => {
    for (const stats of resolvers.map((it) => it.stats())) {
      const isOver = stats.bytesHeld > LIMITS.heldBytes || stats.held > LIMITS.heldMaps || stats.missingHeld > LIMITS.heldMissing;
      if (isOver || stats.contextBytesHeld > LIMITS.heldContextBytes) faults.push(`more is held than the limits: ${JSON.stringify(stats)}`);
    }
    used.push(process.memoryUsage().rss / 1e6);
    await sleep(Math.min(1000 * SECONDS / 8, 1000)); // prettier-ignore
  };
  const change50 = async () => {
    change();
    await sleep(50);
  };
  const asks = Array.from({ length: 8 }, (_, n) => repeat(() => trace(resolvers[n < 2 ? 0 : 1])));
  await Promise.all([...asks, repeat(change50), repeat(check)]);
  const sums = resolvers.map((it) => it.stats());
  for (const [name, count] of Object.entries(done)) {
    if (sums[0][name] + sums[1][name] !== count) faults.push(`other counts of ${name}: ${sums[0][name] + sums[1][name]}, not ${count}`);
  }
  const [early, last] = [used[used.length >> 2], used.at(-1)];
  if (last > 1.5 * early + 100) faults.push(`memory grows: ${early} MB, then ${last} MB`);
  console.log(`${done.traces} traces, ${done.frames} frames, ${done.resolved} resolved; ${early.toFixed(0)} then ${last.toFixed(0)} MB`);
  console.log(JSON.stringify(sums));
  console.log([`${faults.length} faults`, ...faults.slice(0, 5)].join('\n'));
  process.exit(faults.length > 0 ? 1 : 0);
}

main();

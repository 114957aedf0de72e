'use strict';
// node resolver.js [COUNT]: the resolver beside a small one over @jridgewell/trace-mapping, in one process, by turns: frames a second of
// traces whose maps are held; the first answer of a map that is not held, from its file; and COUNT (10,000) maps in one folder, copies of
// one with stamps of their own, within 2 GB. Times are of the processor. The last needs some 0.1 MB of disk for each. NODE_PATH=/usr/share/nodejs has Debian's peer.

const fs = require('node:fs');
const { join } = require('node:path');
const { tmpdir } = require('node:os');
const { originalPositionFor, TraceMap } = require('@jridgewell/trace-mapping');

const { BESIDE, Resolver } = require('../lib/resolver.js');
const { made } = require('./maps.js');
const { random } = require('../test/random.js');

const COUNT = Number(process.argv[2] ?? 10_000);
const H = 'https://example.com/';
const room = fs.mkdtempSync(join(tmpdir(), 'junketscarp-'));
process.once('exit', () => fs.rmSync(room, { recursive: true }));

const median = (times) => times.sort((a, b) => a - b)[times.length >> 1];
/** The milliseconds of the processor that a call takes. */
function took(call) {
  const start = process.cpuUsage();
  call();
  const { user, system } = process.cpuUsage(start);
  return (user + system) / 1000;
}

/** The same by the peer, as short as it can be: maps in a Map without bounds, one pattern of frames. */
class Peer {
  maps = new Map();

  mapOf(url) {
    let map = this.maps.get(url);
    if (map === undefined) {
      map = new TraceMap(fs.readFileSync(join(room, `${url.slice(H.length)}.map`), 'utf8'));
      this.maps.set(url, map);
    }
    return map;
  }

  resolveText(text) {
    return text.replace(/(https?:[^\s():]*[^\s()]*):(\d+):(\d+)/g, (all, url, line, column) => {
      const found = originalPositionFor(this.mapOf(url), { line: Number(line), column: Number(column) - 1 });
      return found.source === null ? all : `${found.source}:${found.line}:${found.column + 1}`;
    });
  }
}

/** A trace of so many frames at tokens of codes. */
function traceOf(names, tokens, next, count = 30) {
  const frames = Array.from({ length: count }, (_, k) => {
    const at = 6 * next(tokens.length / 6);
    return `    at f${k} (${H}${names[next(names.length)]}:${tokens[at] + 1}:${tokens[at + 1] + 1})\n`;
  });
  return `Error: x\n${frames.join('')}`;
}

/** A map that was written a while ago: of one that is newer than two seconds the hash is compared. */
function write(name, value) {
  const path = join(room, `${name}.map`);
  fs.writeFileSync(path, JSON.stringify(value));
  fs.utimesSync(path, 1e9, 1e9);
}

function frames(next) {
  const { tokens, value } = made(100_000, 2000, 50, 1000, 0);
  const names = ['a.js', 'b.js', 'c.js'];
  for (const it of names) write(it, { ...value, file: it });
  const traces = Array.from({ length: 200 }, () => traceOf(names, tokens, next));
  const ways = { ours: new Resolver(room, H, { cache: BESIDE, besideFirst: true }), peer: new Peer() };
  for (const it of traces) if (ways.ours.resolveText(it) !== ways.peer.resolveText(it)) throw new Error('other answers');
  const rates = Object.fromEntries(Object.keys(ways).map((name) => [name, 0]));
  for (let round = 0; round < 15; round++) {
    for (const [name, way] of Object.entries(ways)) {
      const time = took(() => traces.forEach((it) => way.resolveText(it)));
      rates[name] = Math.max(rates[name], (1000 * 30 * traces.length) / time);
    }
  }
  console.log(`frames a second: ${Math.round(rates.ours)}, trace-mapping ${Math.round(rates.peer)}, ratio ${(rates.ours / rates.peer).toFixed(2)}`);
}

function first(next) {
  for (const [count, bytes] of [[20_000, 0], [200_000, 0], [600_000, 3_000_000]]) { // prettier-ignore
    const { tokens, value } = made(count, count / 50, 50, 1000, bytes);
    write('first.js', value);
    const trace = traceOf(['first.js'], tokens, next, 1);
    new Resolver(room, H, { cache: BESIDE, besideFirst: true }).resolveText(trace);
    const times = { ours: [], peer: [] };
    for (let round = 0; round < 9; round++) {
      const ours = new Resolver(room, H, { besideFirst: true });
      times.ours.push(took(() => ours.resolveText(trace)));
      times.peer.push(took(() => new Peer().resolveText(trace)));
    }
    const [a, b] = [median(times.ours), median(times.peer)];
    const size = (name) => (fs.statSync(join(room, name)).size / 1e6).toFixed(1);
    const sizes = `${size('first.js.map')} MB, compiled ${size('first.js.map.smc')} MB`;
    console.log(`first answer, ${sizes}: ${a.toFixed(2)} ms, trace-mapping ${b.toFixed(2)} ms, ratio ${(b / a).toFixed(0)}`);
  }
}

function many(next) {
  const { tokens, value } = made(10_000, 200, 20, 500, 0);
  const names = Array.from({ length: COUNT }, (_, k) => `${k}.js`);
  for (const it of names) write(it, { ...value, file: it });
  const resolver = new Resolver(room, H, { cache: BESIDE, besideFirst: true });
  const all = (count) => took(() => names.forEach(() => resolver.resolveText(traceOf(names, tokens, next, count)))) / COUNT;
  const compiling = took(() => names.forEach((it) => resolver.resolveText(traceOf([it], tokens, next, 1)))) / COUNT;
  const before = resolver.stats();
  const each = all(1);
  const { misses, compiledMade, compiledUsed, resolved, frames, bytesHeld } = resolver.stats();
  const mb = (bytes) => `${Math.round(bytes / 1e6)} MB`;
  console.log(`${COUNT} maps: ${compiling.toFixed(2)} ms to compile each and answer, then ${each.toFixed(2)} ms a trace of a random one`);
  console.log(`  ${misses - before.misses} not held, ${compiledMade} compiled, ${compiledUsed} opened, ${resolved} of ${frames} frames resolved`);
  console.log(`  ${mb(bytesHeld)} held, resident ${mb(process.memoryUsage().rss)}, at most ${mb(process.resourceUsage().maxRSS * 1024)}`);
}

const next = random(7);
frames(next);
first(next);
many(next);

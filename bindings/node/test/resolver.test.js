'use strict';
// The resolver of stack traces. Expected places are those of hand-worked maps, and of the stored runs of the program `sourcemap`.

const test = require('node:test');
const assert = require('node:assert/strict');
const fs = require('node:fs');
const { createHash } = require('node:crypto');
const { execFileSync } = require('node:child_process');
const { join } = require('node:path');
const { tmpdir } = require('node:os');

const { SourceMap } = require('..');
const { BESIDE, Folder, Lines, Reason, Resolver, TooLargeError, framesIn } = require('../lib/resolver.js');
const { random } = require('./random.js');
const { REPOSITORY } = require('./support.js');

// By hand: generated 0:0 is a.ts 0:0, 0:13 is a.ts 1:2 with the name run, 1:0 is b.ts 4:0, and 1:4 is unmapped.
const VALUE = { version: 3, sourceRoot: 'src', sources: ['a.ts', 'b.ts'], names: ['run'], mappings: 'AAAA,aACEA;ACGF,I' };
const MAP = Buffer.from(JSON.stringify(VALUE));
const CODE = 'function f() {throw 1}\nf();\n//# sourceMappingURL=app.js.map\n';
// As long as MAP; 0:0 is c.ts 0:0.
const OTHER = Buffer.from(JSON.stringify({ ...VALUE, sources: ['c.ts', 'd.ts'] }));
const H = 'http://h/';
const OLD = 1_000_000_000;

/** A folder with files, each written at a time, in seconds. */
function folderOf(files) {
  const room = fs.mkdtempSync(join(tmpdir(), 'junketscarp-'));
  process.once('exit', () => fs.rmSync(room, { recursive: true }));
  write(room, files);
  return room;
}

function write(folder, files, time = OLD) {
  for (const [name, data] of Object.entries(files)) {
    fs.mkdirSync(join(folder, name, '..'), { recursive: true });
    fs.writeFileSync(join(folder, name), data);
    fs.utimesSync(join(folder, name), time, time);
  }
}

/** A store of these files, which tells what it is asked for. */
function storeOf(files, answer = (it) => it) {
  const asked = [];
  const get = (name) => {
    asked.push(name);
    return answer(Object.hasOwn(files, name) ? Buffer.from(files[name]) : null, name);
  };
  return { asked, get, files };
}

const placeOf = (resolver, url, line = 1, column = 1) => {
  const { place, reason } = resolver.resolveFrame(url, line, column);
  return place ?? reason;
};
const whyNot = ({ reason, detail }) => `${reason}: ${detail}`;

const stored = join(REPOSITORY, 'tests/sourcemap/frames.json');
test('the forms of frames that the program has', { skip: !fs.existsSync(stored) && 'the repository is not here' }, () => {
  // (colour codes, strings, React's and escaped URLs that climb are the program's alone, as is that it looks for folders)
  const alone = ['\x1b', '"', "'", 'rsc:', 'about:', '..', '%2e', 'other/', 'my%20', 'quote'];
  const rows = JSON.parse(fs.readFileSync(stored, 'utf8')).filter((it) => it.words === undefined && !alone.some((part) => it.line.includes(part)));
  assert.ok(rows.length > 90);
  const codes = ['app.js', '(group)/app.js', 'node_modules/@scope/app.js', '@vite/app.js', 'index.android.bundle'];
  const map = JSON.stringify({ ...VALUE, names: [], mappings: 'AAAA,aACE;ACGF,I' });
  const hosts = ['http://localhost:8080', 'https://example.com', 'http://h', 'https://h', 'chrome-extension://abcdef', 'moz-extension://abcdef'];
  const bases = [...hosts, '/srv/build/dist', '/Users/me/dist', 'C:\\build\\dist', ''].map((it) => [it, '']);
  const resolver = new Resolver(storeOf(Object.fromEntries(codes.map((it) => [`${it}.map`, map]))), Object.fromEntries(bases));
  for (const { line, wanted, why, engine } of rows) {
    // (that a position is past the end of the code is found by the program alone)
    if (!why?.includes('past the end')) assert.equal(resolver.resolveText(line), wanted, engine);
  }
});

test('lines with other brackets and words', () => {
  // (what `sourcemap resolve` makes of them)
  const rows = {
    'loaded (app.js:1:14)': 'loaded (app.js:1:14)',
    'what (app.js:1:14)': 'what (app.js:1:14)',
    'Started at noon:30:15': 'Started at noon:30:15',
    '    at f (g( (app.js:1:14)': '    at f (g( (src/a.ts:2:3)',
    '    at f (g( ((group)/app.js:1:14)': '    at f (g( (src/a.ts:2:3)',
    'x at f (a (b) c (app.js:1:14)': 'x at f (a (b) c (src/a.ts:2:3)',
    'at app.js:1:14, app.js:2:1': 'at src/a.ts:2:3, app.js:2:1',
    'at f (app.js:1:14) app.js:2:1)': 'at f (src/a.ts:2:3) app.js:2:1)',
  };
  const resolver = new Resolver(storeOf({ 'app.js.map': MAP, '(group)/app.js.map': MAP }));
  assert.deepEqual(Object.fromEntries(Object.keys(rows).map((it) => [it, resolver.resolveText(it)])), rows);
  assert.deepEqual([...framesIn('loaded (app.js:1:14)'), ...framesIn('Started at noon:30:15')], []);
  assert.equal(placeOf(new Resolver(storeOf({ [`${'abc/'.repeat(300)}a.js.map`]: MAP })), `${'abc/'.repeat(300)}a.js`), Reason.REFUSED);
});

test('frames lie apart', () => {
  const next = random(1);
  const parts = ['at ', '(', ')', ' ', 'a.js:1:1', 'f', ':2:3', '@', 'h://', '\n', '❯ ', ',', '{'];
  for (let k = 0; k < 40_000; k++) {
    const text = Array.from({ length: 10 }, () => parts[next(k % 2 === 0 ? 5 : parts.length)]).join('');
    let last = 0;
    for (const { url, line, column, start, end } of framesIn(text)) {
      assert.ok(last <= start, text);
      assert.equal(text.slice(start, end), `${url}:${line}:${column}`);
      last = end;
    }
  }
});

test('bytes that are no part of a place stay', () => {
  const resolver = new Resolver(storeOf({ 'app.js.map': MAP, 'ü.js.map': JSON.stringify({ ...VALUE, sources: ['ü€.ts'], mappings: 'AAAA' }) }), H);
  const trace = '\r\n    at ü (http://h/app.js:1:14)\r\nf@http://h/app.js:2:1\r\n\0\n@http://h/%C3%BC.js:1:1\n';
  const wanted = '\r\n    at ü (src/a.ts:2:3)\r\nf@src/b.ts:5:1\r\n\0\n@src/ü€.ts:1:1\n';
  assert.equal(resolver.resolveText(trace), wanted);
  for (const front of ['', '\ufeff', Buffer.from([0xff, 0xfe, 0xc3])]) {
    const bytes = (text) => Buffer.concat([Buffer.from(front), Buffer.from(text)]);
    assert.deepEqual(resolver.resolveText(bytes(trace)), bytes(wanted));
  }
});

test('sources that would forge a trace', () => {
  const map = { version: 3, sources: ['a"\n\u202e\x9b.ts'], names: [], mappings: 'AAAA' };
  const resolver = new Resolver(storeOf({ 'app.js.map': JSON.stringify(map) }));
  assert.equal(resolver.resolveText('f@app.js:1:1'), 'f@"a\\"\\n\\u202e\\u009b.ts":1:1');
});

test('time is linear in the trace', () => {
  for (const part of [':1:1', '(:1:1)', 'at (', 'at a:1:1 ', ') at x(', '@', '     :1:1', 'f@:/', '((((:1:1', '{ :1:1', 'at x (a.js:1:1) ', '❯ a:1:1 ', '\na:1:1']) {
    const start = process.cpuUsage().user;
    const text = part.repeat(400_000 / part.length);
    for (const trace of [text, `${text}\n${' '.repeat(400_000)}:1:1{${' '.repeat(400_000)}x`]) assert.ok([...framesIn(trace)].length >= 0);
    assert.ok(process.cpuUsage().user - start < 8_000_000, part);
  }
});

test('columns and lines of frames count from 1', () => {
  const resolver = new Resolver(storeOf({ 'app.js.map': MAP }), H);
  assert.deepEqual([1, 13, 14].map((column) => placeOf(resolver, `${H}app.js`, 1, column)), ['src/a.ts:1:1', 'src/a.ts:1:1', 'src/a.ts:2:3']);
  const { source, line, column, name } = resolver.resolveFrame(`${H}app.js`, 1, 14);
  assert.deepEqual([source, line, column, name], ['src/a.ts', 1, 2, 'run']);
  const reasons = [[0, 1], [1, 0], [2 ** 32, 1], [3, 1], [2, 5]].map((it) => placeOf(resolver, `${H}app.js`, ...it)); // prettier-ignore
  assert.deepEqual(reasons, [Reason.POSITION, Reason.POSITION, Reason.POSITION, Reason.NOTHING, Reason.UNMAPPED]);
});

test('URLs and the names of a store', () => {
  const room = folderOf({ 'dist/app.js': CODE, 'dist/app.js.map': MAP });
  const resolver = new Resolver(room, { [H]: '', [`${H}v2/`]: 'dist', '/srv/app': 'dist', 'C:\\app': 'dist' });
  for (const url of ['http://h/dist/app.js', 'http://H/v2//./app.js?x=1:2#y', 'file:///srv/app/app.js', '/srv/app/app.js', 'C:/app/app.js', `${H}v2/%61pp.js`]) {
    assert.equal(placeOf(resolver, url, 2, 1), 'src/b.ts:5:1', url);
  }
  for (const url of ['http://g/dist/app.js', 'https://h/dist/app.js', '/srv/ap/app.js', '/srv/apps/app.js', 'dist/app.js', 'http://h:80/dist/app.js']) {
    assert.equal(placeOf(resolver, url, 2, 1), Reason.OUTSIDE, url);
  }
  assert.equal(placeOf(resolver, 'app.js', 1, 1), Reason.OUTSIDE);
});

test('what leads out of a folder is refused', () => {
  const room = folderOf({ 'dist/app.js.map': MAP, 'distant.js.map': MAP, 'secret/a.js.map': MAP });
  const links = { 'out.js.map': '../distant.js.map', gone: '../secret', 'loop.js.map': 'loop.js.map', 'in.js.map': 'app.js.map', self: '.' };
  for (const [name, target] of Object.entries(links)) fs.symlinkSync(target, join(room, 'dist', name));
  execFileSync('mkfifo', [join(room, 'dist/pipe.js.map')]);
  const resolver = new Resolver(join(room, 'dist'), H, { cache: BESIDE });
  const climbing = ['../distant.js', '%2e%2e/distant.js', '..%2fdistant.js', 'x/../../distant.js', 'a%00.js', 'a%0a.js', 'a%ff.js', 'a\\b.js', 'out.js', 'gone/a.js'];
  for (const name of [...climbing, '\udcff.js', `${'a'.repeat(256)}.js`, `${'abc/'.repeat(300)}a.js`]) {
    assert.equal(placeOf(resolver, H + name), Reason.REFUSED, name);
  }
  assert.equal(placeOf(resolver, `${H}loop.js`), Reason.STORE);
  assert.equal(placeOf(resolver, `${H}pipe.js`), Reason.NOT_THERE);
  assert.deepEqual(['in.js', 'self/in.js'].map((it) => placeOf(resolver, H + it)), ['src/a.ts:1:1', 'src/a.ts:1:1']);
  assert.deepEqual(fs.readdirSync(room).sort(), ['dist', 'distant.js.map', 'secret']);
  assert.deepEqual(fs.readdirSync(join(room, 'secret')), ['a.js.map']);
  assert.throws(() => new Folder(room).get('../x'), /part '\.\.'/);
});

test('the map that a comment names', () => {
  const place = (url, besideFirst = false) => {
    const store = storeOf({ 'a/c.js': Buffer.concat([Buffer.from('//# sourceMappingURL='), url]), 'maps/c.map': MAP, 'a/c.js.map': OTHER });
    return placeOf(new Resolver(store, { [`${H}x`]: '' }, { besideFirst }), `${H}x/a/c.js`);
  };
  const data = `data:application/json,${encodeURIComponent(MAP)}`;
  for (const url of ['../maps/c.map', 'http://h/x/maps/c.map', '/x/maps/c.map', '//h/x/maps/c.map?v=1', './..//maps/%63.map', data]) {
    assert.equal(place(Buffer.from(url)), 'src/a.ts:1:1', url);
  }
  for (const url of ['../maps/d.map', 'http://g/x/maps/c.map', '/maps/c.map', 'http://[']) assert.equal(place(Buffer.from(url)), 'src/c.ts:1:1', url);
  assert.equal(place(Buffer.from([0xff])), 'src/c.ts:1:1');
  assert.equal(place(Buffer.from('../../maps/c.map')), Reason.REFUSED);
  assert.equal(place(Buffer.from('data:application/json,{')), Reason.BAD_MAP);
  assert.equal(place(Buffer.from('../maps/c.map'), true), 'src/c.ts:1:1');
});

test('why a frame is not resolved', () => {
  const files = { 'a.js': '', 'b.js.map': '{"version":3,"sources":[],"mappings":"A;A,AA"}', 'c.js': ' '.repeat(99), 'd.js.map': ' '.repeat(200) };
  const limits = { codeBytes: 98, mapBytes: 199 };
  const resolver = new Resolver(storeOf(files), '', { limits });
  const reasons = {
    'a.js': 'no map: a.js names no map that is there, and there is no a.js.map',
    'b.js': 'bad map: b.js.map: Mapping segment had an unsupported size of 2, at line 1, segment 1 (byte 4)',
    'c.js': 'too large: c.js has 99 bytes, and the limit is 98',
    'd.js': 'too large: d.js.map has 200 bytes, and the limit is 199',
    'e.js': 'not there: there is no e.js, and no e.js.map',
  };
  assert.deepEqual(Object.fromEntries(Object.keys(reasons).map((it) => [it, whyNot(resolver.resolveFrame(it, 1, 1))])), reasons);
  assert.equal(resolver.stats().compiledMade, 0);
  const { notResolvedNoMap, notResolvedBadMap, notResolvedTooLarge, notResolvedNotThere, missingHeld, misses } = resolver.stats();
  assert.deepEqual([notResolvedNoMap, notResolvedBadMap, notResolvedTooLarge, notResolvedNotThere, missingHeld, misses], [1, 1, 2, 1, 5, 5]);
  assert.equal(whyNot(new Resolver(folderOf(files), '', { limits }).resolveFrame('d.js', 1, 1)), reasons['d.js']);
  assert.throws(() => new Resolver({}, H), TypeError);
  assert.throws(() => new Resolver(storeOf({}), H, { limits: { maps: 1 } }), /there is no limit maps/);
  assert.throws(() => new Resolver(storeOf({}), H, { limits: { frames: -1 } }), RangeError);
  assert.throws(() => new Resolver(storeOf({}), H, { cach: 1 }), /Resolver has no option "cach", but cache and /);
  for (const it of [1.5, NaN, '1', undefined]) {
    assert.throws(() => resolver.resolveFrame('d.js', it, 1), /^TypeError: the line is /);
    assert.throws(() => resolver.resolveFrame('d.js', 1, it), /^TypeError: the column is /);
  }
});

test('debug ids', () => {
  const one = '85314830-023f-4cf1-a267-535f4e37bb17';
  const two = '00000000-0000-4000-8000-000000000000';
  const named = JSON.stringify({ ...VALUE, debugId: one.toUpperCase() });
  const resolver = new Resolver(storeOf({ [`ids/${one}.map`]: named, 'b.js.map': named, 'c.js.map': OTHER }), H, { debugIdName: 'ids/{}.map' });
  const found = (url, id) => (({ place, reason }) => place ?? reason)(resolver.resolveFrame(url, 1, 1, id));
  assert.equal(found('https://cdn/x.js', one.replaceAll('-', '')), 'src/a.ts:1:1');
  assert.equal(found('https://cdn/x.js', two), Reason.OUTSIDE);
  assert.equal(resolver.resolveText('f@http://h/b.js:1:1', { [`${H}b.js`]: one }), 'f@src/a.ts:1:1');
  assert.deepEqual([found(`${H}b.js`, two), found(`${H}b.js`, null)], [Reason.OTHER_BUILD, 'src/a.ts:1:1']);
  assert.deepEqual([found(`${H}c.js`, two), found(`${H}c.js`, '../x')], ['src/c.ts:1:1', Reason.REFUSED]);
});

/** The compiled map of one text, which says that it is of another one. */
const compiledOf = (map, text = map) => new SourceMap(map).compile({ textLength: text.length, stamp: createHash('sha256').update(text).digest() });
/** What a new resolver says of 0:0, and its counts of compiled maps that are not 0. */
function placed(folder, options) {
  const resolver = new Resolver(folder, H, options);
  const place = placeOf(resolver, `${H}app.js`);
  const counts = Object.entries(resolver.stats()).filter(([name, count]) => name.startsWith('compiled') && count > 0);
  return [place, Object.fromEntries(counts.map(([name, count]) => [name.slice(8).toLowerCase(), count]))];
}

test('compiled maps are made once, beside their maps', () => {
  const folder = folderOf({ 'app.js': CODE, 'app.js.map': MAP, 'sub/b.js.map': MAP });
  assert.deepEqual(placed(folder, { cache: BESIDE }), ['src/a.ts:1:1', { made: 1 }]);
  assert.ok(fs.readFileSync(join(folder, 'app.js.map.smc')).equals(compiledOf(MAP)));
  assert.equal(fs.statSync(join(folder, 'app.js.map.smc')).mode, fs.statSync(join(folder, 'app.js.map')).mode);
  assert.deepEqual(placed(folder, { cache: BESIDE }), ['src/a.ts:1:1', { used: 1 }]);
  assert.deepEqual(placed(folder, {}), ['src/a.ts:1:1', { used: 1 }]);
  assert.deepEqual(fs.readdirSync(folder).sort(), ['app.js', 'app.js.map', 'app.js.map.smc', 'sub']);
  fs.symlinkSync('sub/b.js.map', join(folder, 'b.js.map'));
  for (const count of ['compiledMade', 'compiledUsed']) {
    const resolver = new Resolver(folder, H, { cache: BESIDE });
    assert.deepEqual([placeOf(resolver, `${H}b.js`), resolver.stats()[count]], ['src/a.ts:1:1', 1]);
  }
  assert.throws(() => new Resolver(storeOf({}), H, { cache: BESIDE }), /of a folder alone/);
  // A map that is written while it is read is not kept.
  class Changing extends Folder {
    open(name) {
      const opened = super.open(name);
      if (opened !== null) fs.utimesSync(join(this.path, name), OLD + 1, OLD + 1);
      return opened;
    }
  }
  const changing = folderOf({ 'app.js.map': MAP });
  assert.equal(placeOf(new Resolver(new Changing(changing), H, { cache: BESIDE }), `${H}app.js`), 'src/a.ts:1:1');
  assert.deepEqual(fs.readdirSync(changing), ['app.js.map']);
});

test('which compiled maps are taken', () => {
  const [a, c] = ['src/a.ts:1:1', 'src/c.ts:1:1'];
  const always = { alwaysHashes: true };
  const rows = [
    // (of a map of this text, written so many seconds after the map: taken by its time, or its hash)
    [compiledOf(OTHER), 0, {}, c, { used: 1 }],
    [compiledOf(OTHER, MAP), 9, {}, c, { used: 1 }],
    [compiledOf(OTHER, MAP), -9, {}, c, { used: 1 }],
    [compiledOf(OTHER), 9, {}, c, { used: 1 }],
    [compiledOf(OTHER), -9, {}, a, { stale: 1, made: 1 }],
    [compiledOf(OTHER), 9, always, a, { stale: 1, made: 1 }],
    [compiledOf(OTHER, MAP), 9, always, c, { used: 1 }],
    [compiledOf(OTHER, Buffer.concat([MAP, Buffer.from(' ')])), 9, {}, a, { stale: 1, made: 1 }],
    [compiledOf(OTHER, MAP).subarray(1), 9, {}, a, { damaged: 1, made: 1 }],
    [Buffer.from(''), 9, {}, a, { damaged: 1, made: 1 }],
  ];
  const folder = folderOf({ 'app.js': CODE, 'app.js.map': MAP });
  for (const [data, later, options, ...wanted] of rows) {
    write(folder, { 'app.js.map.smc': data }, OLD + later);
    assert.deepEqual(placed(folder, options), wanted, `${later} ${JSON.stringify(options)}`);
  }
  // (one that is told by its hash gets the time of its map, if it is the resolver's own)
  for (const [options, time] of [[{}, OLD - 9], [{ cache: BESIDE }, OLD]]) { // prettier-ignore
    write(folder, { 'app.js.map.smc': compiledOf(MAP) }, OLD - 9);
    assert.deepEqual(placed(folder, options), [a, { used: 1 }]);
    assert.equal(Math.floor(fs.statSync(join(folder, 'app.js.map.smc')).mtimeMs / 1000), time);
  }
  assert.equal(placed(folder, { limits: { mapBytes: MAP.length - 1 } })[0], Reason.TOO_LARGE);
  write(folder, { '../x.smc': compiledOf(OTHER, MAP) }, OLD + 9);
  fs.rmSync(join(folder, 'app.js.map.smc'));
  fs.symlinkSync('../x.smc', join(folder, 'app.js.map.smc'));
  assert.deepEqual(placed(folder, { cache: BESIDE }), [a, { made: 1 }]);
  assert.ok(fs.readFileSync(join(folder, '../x.smc')).equals(compiledOf(OTHER, MAP)));
  fs.rmSync(join(folder, '../x.smc'));
});

test('compiled maps in a cache folder', () => {
  const folder = folderOf({ 'app.js': CODE, 'app.js.map': MAP });
  const cache = join(folderOf({}), 'cache');
  assert.deepEqual(placed(folder, { cache }), ['src/a.ts:1:1', { made: 1 }]);
  assert.deepEqual(placed(folder, { cache }), ['src/a.ts:1:1', { used: 1 }]);
  // A map of as many bytes in its place, which is older, as a copy that keeps times leaves it.
  write(folder, { 'app.js.map': OTHER }, OLD - 9);
  assert.deepEqual(placed(folder, { cache }), ['src/c.ts:1:1', { stale: 1, made: 1 }]);
  assert.deepEqual(placed(folder, { cache }), ['src/c.ts:1:1', { used: 1 }]);
  assert.deepEqual(fs.readdirSync(folder).sort(), ['app.js', 'app.js.map']);
  assert.equal(fs.readdirSync(cache).length, 1);
  const now = Date.now() / 1000;
  for (const [map, place] of [[MAP, 'src/a.ts:1:1'], [OTHER, 'src/c.ts:1:1']]) { // prettier-ignore
    write(folder, { 'app.js.map': map }, now);
    assert.equal(placed(folder, { cache: BESIDE })[0], place);
  }
  const resolver = new Resolver(folder, H, { cache });
  fs.rmSync(cache, { recursive: true });
  write(folder, { 'b.js.map': MAP });
  assert.deepEqual([placeOf(resolver, `${H}b.js`), resolver.stats().compiledUnwritten], ['src/a.ts:1:1', 1]);
});

test('what is held is bounded, and what was asked for longest ago goes first', () => {
  const names = [0, 1, 2, 3, 4, 5].map((it) => `${it}.js`);
  const store = storeOf(Object.fromEntries(names.map((it) => [`${it}.map`, MAP])));
  const resolver = new Resolver(store, '', { limits: { heldMaps: 3, heldMissing: 2 }, besideFirst: true });
  const ask = (...them) => {
    store.asked.length = 0;
    for (const it of them) placeOf(resolver, it);
    return store.asked.join(' ');
  };
  assert.equal(ask(...names, '3.js', '0.js'), `${names.map((it) => `${it}.map`).join(' ')} 0.js.map`);
  assert.equal(ask('3.js', '5.js', '4.js'), '4.js.map');
  const { hits, misses, evictions, held, bytesHeld } = resolver.stats();
  assert.deepEqual([hits, misses, evictions, held], [3, 8, 5, 3]);
  assert.equal(bytesHeld, 3 * (4096 + compiledOf(MAP).length));
  assert.equal(ask('a.js', 'b.js', 'a.js', 'c.js', 'a.js', 'b.js').split(' ').filter((it) => it.endsWith('.js')).join(' '), 'a.js b.js c.js b.js');
  assert.deepEqual([resolver.stats().missingHits, resolver.stats().missingHeld], [2, 2]);
  resolver.clear();
  assert.deepEqual([resolver.stats().bytesHeld, ask('3.js')], [0, '3.js.map']);
  const small = new Resolver(store, '', { limits: { heldBytes: 2 * (4096 + compiledOf(MAP).length) }, besideFirst: true });
  for (const it of names) placeOf(small, it);
  assert.deepEqual([small.stats().held, small.stats().evictions], [2, 4]);
  // One that is larger than all that may be held takes no other one's place.
  store.files['large.js.map'] = JSON.stringify({ ...VALUE, sourcesContent: ['x'.repeat(9000)] });
  assert.equal(placeOf(small, 'large.js'), 'src/a.ts:1:1');
  assert.deepEqual([small.stats().held, small.stats().evictions], [2, 5]);
});

test('what is new is seen once time is over', () => {
  let now = 0;
  const store = storeOf({ 'app.js.map': MAP });
  const resolver = new Resolver(store, H, { limits: { heldSeconds: 5 }, clock: () => now });
  const places = () => ['app.js', 'b.js'].map((it) => placeOf(resolver, H + it));
  assert.deepEqual(places(), ['src/a.ts:1:1', Reason.NOT_THERE]);
  Object.assign(store.files, { 'app.js.map': OTHER, 'b.js.map': MAP });
  now = 4.9;
  assert.deepEqual(places(), ['src/a.ts:1:1', Reason.NOT_THERE]);
  now = 5;
  assert.deepEqual([places(), resolver.stats().expired], [['src/c.ts:1:1', 'src/a.ts:1:1'], 2]);
  assert.equal(resolver.stats().bytesHeld, 4096 + compiledOf(OTHER).length + 4096 + compiledOf(MAP).length);
});

test('limits of a trace', () => {
  const resolver = new Resolver(storeOf({ 'app.js.map': MAP }), '', { limits: { traceBytes: 56, frames: 2 } });
  assert.equal(resolver.resolveText('f@app.js:1:1\n'.repeat(4)), 'f@src/a.ts:1:1\n'.repeat(2) + 'f@app.js:1:1\n'.repeat(2));
  const { frames, resolved, notResolvedFrames, misses, hits } = resolver.stats();
  assert.deepEqual([frames, resolved, notResolvedFrames, misses, hits], [4, 2, 2, 1, 0]);
  for (const trace of ['ü'.repeat(28) + 'x', Buffer.alloc(57)]) {
    const is = (error) => error instanceof TooLargeError && error.message === 'the trace has 57 bytes, and the limit is 56' && error.length === 57;
    assert.throws(() => resolver.resolveText(trace), is);
  }
  assert.equal(resolver.resolveText('ü'.repeat(28)), 'ü'.repeat(28));
  assert.deepEqual([resolver.stats().traces, resolver.stats().tracesRefused], [2, 2]);
  let now = 0;
  const slow = storeOf({ 'a.js.map': MAP, 'b.js.map': MAP }, (it) => ((now += 3), it));
  const late = new Resolver(slow, '', { limits: { seconds: 5 }, besideFirst: true, clock: () => now });
  const reasons = late.resolve('f@a.js:1:1\nf@b.js:1:1\nf@c.js:1:1\nf@a.js:1:1').map(({ reason }) => reason);
  assert.deepEqual(reasons, [null, null, Reason.TIME, Reason.TIME]);
});

test('stores that answer by promises: traces at once read a map once, and wait no longer than the limit', async () => {
  let answers = [];
  const store = storeOf({ 'app.js.map': MAP, 'b.js.map': MAP }, (it) => new Promise((resolve, reject) => answers.push({ resolve: () => resolve(it), reject })));
  const resolver = new Resolver(store, '', { besideFirst: true, limits: { seconds: 1 } });
  assert.throws(() => resolver.resolveText('f@app.js:1:14'), /TypeError: the store answers by a Promise/);
  store.asked.length = 0;
  answers = [];
  const all = [1, 2, 3].map(() => resolver.resolveTextAsync('f@app.js:1:14\ng@app.js:2:1'));
  await new Promise(setImmediate);
  answers[0].resolve();
  assert.deepEqual(await Promise.all(all), Array(3).fill('f@src/a.ts:2:3\ng@src/b.ts:5:1'));
  assert.deepEqual([store.asked, resolver.stats().waits], [['app.js.map'], 2]);
  // One that does not answer in time is held for the next trace.
  assert.equal((await resolver.resolveFrameAsync('b.js', 1, 1)).reason, Reason.TIME);
  answers.at(-1).resolve();
  await new Promise(setImmediate);
  assert.equal((await resolver.resolveFrameAsync('b.js', 1, 1)).place, 'src/a.ts:1:1');
  assert.equal(store.asked.length, 2);
  // One that fails is asked again.
  for (const [end, wanted] of [[() => answers.at(-1).reject(new TypeError('fetch failed')), 'store: TypeError: fetch failed'], [() => answers.at(-1).resolve(), 'not there']]) { // prettier-ignore
    const found = resolver.resolveFrameAsync('c.js', 1, 1);
    await new Promise(setImmediate);
    end();
    if (wanted === 'not there') {
      await new Promise(setImmediate);
      for (const it of answers) it.resolve();
      await new Promise(setImmediate);
      for (const it of answers) it.resolve();
    }
    assert.ok(whyNot(await found).startsWith(wanted));
  }
  // One that never answers is asked again by a later trace.
  assert.equal((await resolver.resolveFrameAsync('d.js', 1, 1)).reason, Reason.TIME);
  store.files['d.js.map'] = MAP;
  await new Promise((resolve) => setTimeout(resolve, 20));
  const again = resolver.resolveFrameAsync('d.js', 1, 1);
  await new Promise(setImmediate);
  answers.at(-1).resolve();
  assert.equal((await again).place, 'src/a.ts:1:1');
  const context = await resolver.contextAsync(await resolver.resolveFrameAsync('app.js', 1, 14));
  assert.equal(context, null);
});

test('lines', () => {
  const lines = new Lines('a\nb\r\nc\rd\u2028e\u2029\n');
  assert.deepEqual(Array.from({ length: lines.length }, (_, at) => lines.line(at)), ['a', 'b', 'c', 'd', 'e', '', '']);
  assert.deepEqual(lines.around(1, 2), { first: 0, line: 1, lines: ['a', 'b', 'c', 'd'] });
  assert.deepEqual(lines.around(6, 1), { first: 5, line: 6, lines: ['', ''] });
  for (const number of [-1, 7, 0.5]) assert.throws(() => lines.line(number), new RangeError(`there is no line ${number}: there are 7`));
});

test('the lines around a frame', () => {
  const store = storeOf({ 'app.js.map': JSON.stringify({ ...VALUE, sourcesContent: ['one\ntwo\nthree', null] }) });
  const resolver = new Resolver(store);
  const frame = resolver.resolveFrame('app.js', 1, 14);
  assert.deepEqual(resolver.context(frame, 1), { first: 0, line: 1, lines: ['one', 'two', 'three'] });
  assert.deepEqual(resolver.context(frame, 0), { first: 1, line: 1, lines: ['two'] });
  assert.equal(resolver.context(resolver.resolveFrame('app.js', 2, 1)), null);
  assert.equal(resolver.context(resolver.resolveFrame('no.js', 1, 1)), null);
  assert.equal(resolver.stats().contextBytesHeld, 2 * 13 + 32 * 3);
  store.files['app.js.map'] = JSON.stringify({ ...VALUE, sources: ['c.ts', 'b.ts'], sourcesContent: ['one\ntwo\nthree', null] });
  resolver.clear();
  assert.equal(resolver.context(frame, 1), null);
  assert.throws(() => resolver.context(frame, -1), RangeError);
});

const document = join(REPOSITORY, 'docs/resolving-at-scale.md');
test('the example of the document', { skip: !fs.existsSync(document) && 'the repository is not here' }, () => {
  const room = folderOf({ 'dist/app.js.map': MAP, 'example.js': fs.readFileSync(document, 'utf8').split('```js\n')[1].split('```')[0] });
  fs.mkdirSync(join(room, 'node_modules'));
  fs.symlinkSync(join(__dirname, '..'), join(room, 'node_modules/junketscarp'));
  assert.equal(execFileSync(process.execPath, ['example.js'], { cwd: room, encoding: 'utf8' }), '    at t (src/a.ts:2:3)\n');
});

test('each call is described', () => {
  const types = fs.readFileSync(join(__dirname, '../lib/resolver.d.ts'), 'utf8');
  const module = require('../lib/resolver.js');
  for (const name of Object.keys(module)) assert.match(types, new RegExp(`\\*/\\nexport (?:const|class|function) ${name}\\b`), name);
  const body = types.split('export class Resolver {')[1];
  for (const name of Object.getOwnPropertyNames(Resolver.prototype)) if (name !== 'constructor') assert.match(body, new RegExp(`\\n {2}${name}\\(`), name);
});

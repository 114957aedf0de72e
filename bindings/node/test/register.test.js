'use strict';
// Stack traces of processes that were started with -r junketscarp/register. What they are to tell is worked by hand: a fixture says
// which piece of code is from which original position.

const { describe, it, before, after } = require('node:test');
const assert = require('node:assert/strict');
const { spawnSync } = require('node:child_process');
const { mkdirSync, mkdtempSync, realpathSync, rmSync, writeFileSync } = require('node:fs');
const { tmpdir } = require('node:os');
const { dirname, join } = require('node:path');
const { pathToFileURL } = require('node:url');

const { NO_ID } = require('..');
const { mappingsOf } = require('./support.js');

const REGISTER = join(__dirname, '../register.js');

let room;
let serial = 0;
before(() => (room = realpathSync(mkdtempSync(join(tmpdir(), 'register-')))));
after(() => rmSync(room, { recursive: true }));

/** An empty folder, and what is written there. */
function folderWith(files) {
  const folder = join(room, `case ${serial++}`);
  for (const [name, content] of Object.entries(files)) {
    mkdirSync(dirname(join(folder, name)), { recursive: true });
    writeFileSync(join(folder, name), content);
  }
  return folder;
}

/** Runs Node in a folder, with the hook if it is not said otherwise. */
function run(folder, args, hook = ['-r', REGISTER]) {
  const { stdout, stderr, status } = spawnSync(process.execPath, [...hook, ...args], { cwd: folder, encoding: 'utf8', timeout: 60_000 });
  return { stdout, stderr, status, lines: stdout.trimEnd().split('\n').map((line) => line.trim()) };
}

/** The value of a map of a code. Each mark is a line of the code and the piece of it that is from a line and a column of the source, all
 *  counted from 1; a piece without them has no source. */
function mapOf(code, marks, more = {}) {
  const lines = code.split('\n');
  const tokens = marks.map(([line, piece, originalLine, originalColumn]) => {
    const column = lines[line - 1].indexOf(piece);
    assert.ok(column >= 0, `no ${piece} on line ${line}`);
    return originalLine === undefined
      ? [line - 1, column, 0, 0, NO_ID, NO_ID]
      : [line - 1, column, originalLine - 1, originalColumn - 1, 0, NO_ID];
  });
  tokens.sort((a, b) => a[0] - b[0] || a[1] - b[1]);
  return { version: 3, sources: ['src/app.ts'], sourcesContent: ['not of the code'], names: [], mappings: mappingsOf(tokens), ...more };
}

const comment = (url) => `\n//# source${''}MappingURL=${url}\n`;
const dataURL = (map) => `data:application/json;charset=utf-8;base64,${Buffer.from(JSON.stringify(map)).toString('base64')}`;

// Frames of many kinds. The first line of `inner` is the piece that throws.
const CODE = [
  "function inner() { throw new TypeError('boom'); }",
  'class Foo { constructor() { inner(); } run() { new Foo(); } static make() { new Foo().run(); } }',
  'const o = {}; o.other = function named() { Foo.make(); };',
  'async function waits() { await null; o.other(); }',
  'async function outer() { await waits(); }',
  'const tell = (error) => console.log(error.stack);',
  'outer().catch(tell).then(() => Promise.all([outer()]).catch(tell));',
  '[1].forEach(() => { try { inner(); } catch (error) { tell(error); } });',
].join('\n');
const MARKS = [
  [1, 'new TypeError', 10, 7],
  [2, 'inner()', 20, 5],
  [2, 'nner()', 20, 99],
  [2, 'new Foo();', 21, 9],
  [2, 'new Foo().run', 22, 3],
  [2, 'run(); }', 22, 12],
  [3, 'make()', 30, 1],
  [4, 'other()', 40, 11],
  [5, 'await', 50, 2],
  [8, 'forEach', 80, 4],
  [8, 'try {'],
];
const file = (folder, position) => `${join(folder, 'src/app.ts')}:${position}`;

/** What the fixture tells, by the marks above. The frame in forEach is of code without a source, so it is told as it is. */
function told(folder, asyncLines) {
  const at = (position) => file(folder, position);
  const own = `${join(folder, 'app.js')}:8:27`;
  return [
    'TypeError: boom',
    `at inner (${at('10:7')})`,
    `at ${own}`,
    'at Array.forEach (<anonymous>)',
    `at Object.<anonymous> (${at('80:4')})`,
    ...asyncLines.flatMap((last) => [
      'TypeError: boom',
      `at inner (${at('10:7')})`,
      `at new Foo (${at('20:5')})`,
      `at Foo.make (${at('22:3')})`,
      `at Object.named [as other] (${at('30:1')})`,
      `at waits (${at('40:11')})`,
      `at async outer (${at('50:2')})`,
      ...last,
    ]),
  ];
}

/** Lines without the frames of Node's own. */
const ofApp = (lines) => lines.filter((line) => !line.includes('node:'));

// It is JavaScript over calls that other tests make with a sanitizer.
const isSanitized = process.env.JUNKETSCARP_SANITIZED !== undefined;

describe('register', { skip: isSanitized && 'its calls are tried by other tests' }, () => {
  it('tells frames of all kinds in original positions', () => {
    const folder = folderWith({ 'app.js': CODE + comment('maps/app.js.map') });
    folderWith({});
    mkdirSync(join(folder, 'maps'));
    writeFileSync(join(folder, 'maps/app.js.map'), JSON.stringify(mapOf(CODE, MARKS, { sourceRoot: '..' })));
    const { lines, stderr } = run(folder, ['app.js']);
    assert.equal(stderr, '');
    assert.deepEqual(ofApp(lines), told(folder, [[], ['at async Promise.all (index 0)']]));
    assert.ok(lines.some((line) => line.startsWith('at Module._compile (node:internal')));
  });

  it('finds maps in data URLs, beside the file, and by the last comment', () => {
    const map = mapOf(CODE, MARKS);
    const wrong = comment(dataURL({ ...map, sources: ['wrong.ts'] }));
    const other = mapOf(CODE, MARKS, { sources: ['wrong.ts'] });
    const ways = {
      data: { 'app.js': CODE + comment(dataURL(map)) },
      beside: { 'app.js': CODE, 'app.js.map': JSON.stringify(map) },
      'the last comment': { 'app.js': CODE + wrong + comment('x.map'), 'x.map': JSON.stringify(map), 'app.js.map': JSON.stringify(other) },
      'beside, where the comment leads nowhere': { 'app.js': CODE + comment('no.map'), 'app.js.map': JSON.stringify(map) },
      'beside, where the comment leads to the web': { 'app.js': CODE + comment('https://x.invalid/a.map'), 'app.js.map': JSON.stringify(map) },
      'a name with a space': { 'app.js': CODE + comment('a%20b.map'), 'a b.map': `)]}'\n${JSON.stringify(map)}` },
    };
    for (const [way, files] of Object.entries(ways)) {
      const folder = folderWith(files);
      assert.deepEqual(ofApp(run(folder, ['app.js']).lines), told(folder, [[], ['at async Promise.all (index 0)']]), way);
    }
  });

  it('leaves frames as they are where a map is bad or missing', () => {
    const ways = {
      none: { 'app.js': CODE },
      missing: { 'app.js': CODE + comment('app.js.map') },
      'no JSON': { 'app.js': CODE + comment('app.js.map'), 'app.js.map': '{' },
      'bad mappings': { 'app.js': CODE + comment(dataURL({ ...mapOf(CODE, MARKS), mappings: 'AA' })) },
      'bad base64': { 'app.js': CODE + comment('data:application/json;base64,%%%') },
      'bad URL': { 'app.js': CODE + comment('https://[') },
      'a folder': { 'app.js': CODE + comment('.') },
    };
    for (const [way, files] of Object.entries(ways)) {
      const folder = folderWith(files);
      const { stdout, stderr } = run(folder, ['app.js']);
      assert.deepEqual([stdout, stderr], [run(folder, ['app.js'], []).stdout, ''], way);
    }
  });

  it('tells the positions that --enable-source-maps tells', () => {
    const all = MARKS.filter((mark) => mark.length === 4);
    const map = mapOf(CODE, [...all, [8, 'inner()', 81, 6]]);
    const folder = folderWith({ 'app.js': CODE + comment('app.js.map'), 'app.js.map': JSON.stringify(map) });
    const positions = ({ stdout }) => stdout.match(/[^ (]*app.ts:\d+:\d+/g);
    const ours = positions(run(folder, ['app.js']));
    assert.equal(ours.length, 15);
    assert.deepEqual(ours, positions(run(folder, ['app.js'], ['--enable-source-maps'])));
  });

  it('tells frames of modules, whose names are URLs', () => {
    const code = "export function f() { throw new Error('esm'); }";
    const map = mapOf(code, [[1, 'new Error', 3, 4]]);
    const main = "import { f } from './m.mjs?v=1';\ntry { f(); } catch (error) { console.log(error.stack); }";
    const folder = folderWith({ 'm.mjs': code + comment('m.mjs.map'), 'm.mjs.map': JSON.stringify(map), 'main.mjs': main });
    const expected = ['Error: esm', `at f (${file(folder, '3:4')})`, `at ${pathToFileURL(join(folder, 'main.mjs'))}:2:7`];
    assert.deepEqual(ofApp(run(folder, ['main.mjs']).lines), expected);
    assert.deepEqual(ofApp(run(folder, ['main.mjs'], ['--import', join(__dirname, '../register.mjs')]).lines), expected);
  });

  it('tells where an eval is from', () => {
    const code = [
      'function f() { eval("(function g() { eval(\'throw new Error(1)\'); })()"); }',
      'try { f(); } catch (error) { console.log(error.stack); }',
    ].join('\n');
    const folder = folderWith({ 'app.js': code, 'app.js.map': JSON.stringify(mapOf(code, [[1, 'eval', 5, 6], [2, 'f()', 7, 8]])) });
    const origin = `eval at f (${file(folder, '5:6')})`;
    assert.deepEqual(ofApp(run(folder, ['app.js']).lines).slice(0, 6), [
      'Error: 1',
      `at eval (eval at g (${origin}), <anonymous>:1:7)`,
      `at g (${origin}, <anonymous>:1:17)`,
      `at eval (${origin}, <anonymous>:1:47)`,
      `at f (${file(folder, '5:6')})`,
      `at Object.<anonymous> (${file(folder, '7:8')})`,
    ]);
  });

  it('tells where sources are, as paths and as URLs', () => {
    const code = "console.log(new Error('x').stack);";
    const folder = join(room, 'sources');
    const told = {
      'b.ts': join(folder, 'b.ts'),
      '../b.ts': join(room, 'b.ts'),
      '/abs/b.ts': '/abs/b.ts',
      'file:///abs/b%20c.ts': '/abs/b c.ts',
      'webpack://app/./src/b.ts': 'webpack://app/src/b.ts',
      'C:\\src\\b.ts': 'C:\\src\\b.ts',
      'c:/src/b.ts': 'c:/src/b.ts',
      '100%.ts': join(folder, '100%.ts'),
      '': join(folder, 'app.js'),
    };
    mkdirSync(folder);
    for (const [source, path] of Object.entries(told)) {
      writeFileSync(join(folder, 'app.js'), code + comment(dataURL(mapOf(code, [[1, 'new Error', 3, 4]], { sources: [source] }))));
      assert.equal(run(folder, ['app.js']).lines[1], `at Object.<anonymous> (${path}:${source === '' ? '1:13' : '3:4'})`, source);
    }
    for (const sourceRoot of ['lib', 'lib/']) {
      writeFileSync(join(folder, 'app.js'), code + comment(dataURL(mapOf(code, [[1, 'new Error', 3, 4]], { sourceRoot }))));
      assert.equal(run(folder, ['app.js']).lines[1], `at Object.<anonymous> (${join(folder, 'lib/src/app.ts')}:3:4)`, sourceRoot);
    }
  });

  const THROWS = "function f() { throw new RangeError('late'); }\nsetTimeout(() => f());";
  const throwing = (more = '') => {
    const code = `${THROWS}\n${more}`;
    return folderWith({ 'app.js': code, 'app.js.map': JSON.stringify(mapOf(code, [[1, 'new RangeError', 6, 7], [2, 'f()', 8, 9]])) });
  };

  it('works for errors that nobody catches', () => {
    const folder = throwing();
    const { stderr, status } = run(folder, ['app.js']);
    assert.equal(status, 1);
    assert.ok(stderr.includes(`RangeError: late\n    at f (${file(folder, '6:7')})\n    at Timeout._onTimeout (${file(folder, '8:9')})\n`), stderr);
    const heard = throwing("process.on('uncaughtException', (error) => { console.log(error.stack); process.exit(3); });");
    const { lines, status: exit } = run(heard, ['app.js']);
    assert.deepEqual([exit, ...lines.slice(0, 2)], [3, 'RangeError: late', `at f (${file(heard, '6:7')})`]);
  });

  it('works in worker threads', () => {
    const main = (options) =>
      `const { Worker } = require('node:worker_threads');
       new Worker('./app.js', ${JSON.stringify(options)}).on('error', (error) => console.log(error.stack));`;
    const folder = throwing();
    writeFileSync(join(folder, 'inherits.js'), main({}));
    writeFileSync(join(folder, 'given.js'), main({ execArgv: ['-r', REGISTER] }));
    const expected = ['RangeError: late', `at f (${file(folder, '6:7')})`];
    assert.deepEqual(run(folder, ['inherits.js']).lines.slice(0, 2), expected);
    assert.deepEqual(run(folder, ['given.js'], []).lines.slice(0, 2), expected);
  });

  // A function of the user's own, and what it says of the first frame.
  const OWN = `(error, [it]) =>
    ['own', it.getFileName(), it.getLineNumber(), it.getColumnNumber(), it.getFunctionName(), String(it)].join(' ')`.replace(/\s+/g, ' ');
  const caught = 'try { f(); } catch (error) { console.log(error.stack); }';
  const withOwn = (own) => {
    const code = `function f() { throw new Error('x'); }\n${own}\n${caught}`;
    return folderWith({ 'app.js': code, 'app.js.map': JSON.stringify(mapOf(code, [[1, 'new Error', 6, 7], [3, 'f()', 8, 9]])) });
  };

  it('leaves the place to a function of the user, which may call it', () => {
    const own = withOwn(`Error.prepareStackTrace = ${OWN};`);
    const path = join(own, 'app.js');
    assert.deepEqual(run(own, ['app.js']).lines, [`own ${path} 1 22 f f (${path}:1:22)`]);
    const calling = '(error, frames) => `own ${before(error, frames)}`';
    const calls = withOwn(`const before = Error.prepareStackTrace; Error.prepareStackTrace = ${calling};`);
    const expected = ['own Error: x', `at f (${file(calls, '6:7')})`, `at Object.<anonymous> (${file(calls, '8:9')})`];
    assert.deepEqual(run(calls, ['app.js']).lines.slice(0, 3), expected);
  });

  it('keeps a function that was there before, and gives it original positions', () => {
    const folder = withOwn('');
    writeFileSync(join(folder, 'own.js'), `Error.prepareStackTrace = ${OWN};`);
    const { lines } = run(folder, ['app.js'], ['-r', './own.js', '-r', REGISTER]);
    assert.deepEqual(lines, [`own ${join(folder, 'src/app.ts')} 6 7 f f (${file(folder, '6:7')})`]);
  });

  it('writes stack traces as the engine does, where Node has no function of its own for it', () => {
    const code = [
      CODE,
      "tell(Object.assign(new Error('m'), { name: 'N' }));",
      "try { require('fs').readFileSync(5.5); } catch (error) { tell(error); }",
    ].join('\n');
    const folder = folderWith({ 'app.js': code, 'none.js': 'delete Error.prepareStackTrace;' });
    const plain = run(folder, ['app.js'], []).stdout;
    assert.equal(run(folder, ['app.js'], ['-r', './none.js', '-r', REGISTER]).stdout, plain);
    assert.equal(run(folder, ['app.js']).stdout, plain);
  });

  it('never throws', () => {
    const code = [
      'const bad = { get message() { throw new Error("no"); }, get name() { throw 1; } };',
      'const tell = (it) => { try { console.log(typeof it.stack); } catch (error) { console.log("threw", error); } };',
      'Error.captureStackTrace(bad); tell(bad);',
      'tell(Object.freeze(new Error("frozen")));',
      'function deep() { deep(); } try { deep(); } catch (error) { tell(error); }',
      'require("fs").rmSync(__filename); tell(new Error("gone"));',
      'require("fs").readFileSync = () => { throw new Error("patched"); }; tell(new Error("patched"));',
    ].join('\n');
    const folder = folderWith({ 'none.js': 'delete Error.prepareStackTrace;', 'app.js': code });
    const { lines, stderr } = run(folder, ['app.js'], ['-r', './none.js', '-r', REGISTER]);
    assert.deepEqual([stderr, ...lines], ['', ...Array(5).fill('string')]);
  });

  it('is installed and taken away by calls', () => {
    const hook = `const { install, uninstall } = require(${JSON.stringify(REGISTER)});`;
    const code = `const before = Error.prepareStackTrace; ${hook}
function tell() { console.log(new Error('x').stack.split('\\n')[1].trim()); }
tell(); install(); tell(); uninstall();
console.log(before === Error.prepareStackTrace); tell(); install();
const ours = Error.prepareStackTrace; const mine = Error.prepareStackTrace = (error, frames) => ours(error, frames);
tell(); uninstall();
console.log(mine === Error.prepareStackTrace); tell();`;
    const folder = folderWith({ 'app.js': code, 'app.js.map': JSON.stringify(mapOf(code, [[2, 'new Error', 6, 7]])) });
    const mapped = `at tell (${file(folder, '6:7')})`;
    const plain = `at tell (${join(folder, 'app.js')}:2:31)`;
    assert.deepEqual(run(folder, ['app.js'], []).lines, [mapped, mapped, 'true', plain, mapped, 'true', plain]);
  });

  it('keeps the maps of 2000 files, those that were asked for last', () => {
    const code = `const { rmSync } = require('node:fs'), vm = require('node:vm'), { join } = require('node:path');
const one = (i) => vm.runInThisContext('new Error(1).stack', { filename: join(__dirname, 'f' + i + '.js') }).split('\\n')[1].includes('app.ts');
let mapped = 0;
for (let i = 0; i < 1990; i++) mapped += one(i);
one(0);
for (let i = 1990; i < 2010; i++) mapped += one(i);
for (const i of [0, 1, 2009]) rmSync(join(__dirname, 'f' + i + '.js.map'));
console.log(mapped, one(0), one(2009), one(1));`;
    const text = 'new Error(1).stack';
    const map = JSON.stringify(mapOf(text, [[1, 'new', 6, 7]]));
    const files = Array.from({ length: 2010 }, (_, i) => [[`f${i}.js`, text], [`f${i}.js.map`, map]]).flat();
    const folder = folderWith({ 'app.js': code, ...Object.fromEntries(files) });
    assert.deepEqual(run(folder, ['app.js']).lines, ['2010 true true false']);
  });
});

'use strict';
// `npx junketscarp`: what runs the program, in a copy of the package's folder that has a script in the place of the program.

const test = require('node:test');
const assert = require('node:assert/strict');
const { spawnSync } = require('node:child_process');
const { chmodSync, cpSync, mkdirSync, mkdtempSync, rmSync, writeFileSync } = require('node:fs');
const { join } = require('node:path');
const { tmpdir } = require('node:os');

const { bin, files } = require('../package.json');

const needsShell = { skip: process.platform === 'win32' && 'there is no shell' };

const SCRIPT = '#!/bin/sh\necho "$# $2 $SOURCEMAP_PAGE $SOURCEMAP_SIZE"\ncat\necho told >&2\nexit 7\n';

/** A folder as of a package, which has the program of each of these platforms, and templates if need be. */
function packaged(programs, { hasPages = false, mode = 0o755 } = {}) {
  const room = mkdtempSync(join(tmpdir(), 'junketscarp-'));
  process.once('exit', () => rmSync(room, { recursive: true }));
  cpSync(join(__dirname, '../bin'), join(room, 'bin'), { recursive: true });
  for (const [platform, script] of Object.entries(programs)) {
    const path = join(room, 'prebuilds', platform, 'sourcemap');
    mkdirSync(join(path, '..'), { recursive: true });
    writeFileSync(path, script);
    chmodSync(path, mode);
  }
  if (hasPages) {
    mkdirSync(join(room, 'wasm'));
    for (const it of ['page.html', 'size.html']) writeFileSync(join(room, 'wasm', it), '');
  }
  return room;
}

function ran(room, { env = {}, words = ['a', 'b c'] } = {}) {
  const { SOURCEMAP_PAGE: _, SOURCEMAP_SIZE: __, ...clean } = process.env;
  const { status, signal, stdout, stderr } = spawnSync(process.execPath, [join(room, bin.junketscarp), ...words], {
    input: 'given\n',
    encoding: 'utf8',
    env: { ...clean, ...env },
  });
  return { status, signal, stdout, stderr };
}

const here = `${process.platform}-${process.arch}`;

test('the program gets the words and the input, and its outputs and its status are those that are had', needsShell, () => {
  const room = packaged({ [here]: SCRIPT });
  assert.deepEqual(ran(room), { status: 7, signal: null, stdout: '2 b c  \ngiven\n', stderr: 'told\n' });
  assert.deepEqual(Object.keys(bin), ['junketscarp', 'sourcemap']);
  assert.equal(bin.sourcemap, bin.junketscarp);
  assert.ok(files.includes('bin'));
});

test('its pages are made of the templates of the package, but where others are named', needsShell, () => {
  const room = packaged({ [here]: SCRIPT }, { hasPages: true });
  const [page, size] = ['page.html', 'size.html'].map((it) => join(room, 'wasm', it));
  assert.equal(ran(room).stdout, `2 b c ${page} ${size}\ngiven\n`);
  assert.equal(ran(room, { env: { SOURCEMAP_PAGE: 'mine.html' } }).stdout, `2 b c mine.html ${size}\ngiven\n`);
});

test('a signal that ends the program ends what runs it', needsShell, () => {
  const { status, signal } = ran(packaged({ [here]: '#!/bin/sh\nkill -TERM $$\n' }));
  assert.deepEqual([status, signal], [null, 'SIGTERM']);
});

test('where there is no program for this platform, it says for which there is, and what to use', () => {
  const room = packaged({ 'plan9-mips': SCRIPT, 'beos-ppc': SCRIPT });
  mkdirSync(join(room, 'prebuilds/os2-ia32')); // which has an addon alone
  const { status, stdout, stderr } = ran(room);
  assert.deepEqual([status, stdout], [1, '']);
  const [first, ...rest] = stderr.split('\n');
  assert.equal(first, `junketscarp: the program sourcemap is there for beos-ppc, plan9-mips, and not for ${here}.`);
  assert.match(rest.join('\n'), /calls of the package .* every platform[^]*container/);
  const none = ran(packaged({}));
  assert.equal(none.stderr.split('\n')[0], `junketscarp: the program sourcemap is there for no platform, and not for ${here}.`);
  assert.equal(none.status, 1);
});

test('a program that does not run here is told, and why', needsShell, () => {
  const withoutLoader = ran(packaged({ [here]: '#!/nowhere/loader\n' }));
  assert.match(withoutLoader.stderr, /^junketscarp: the program \S+sourcemap does not run on this machine \(ENOENT\)\.\n/);
  assert.equal(withoutLoader.status, 1);
  const refused = ran(packaged({ [here]: SCRIPT }, { mode: 0o644 }));
  assert.match(refused.stderr, /does not run on this machine \(EACCES\)\./);
  assert.equal(refused.status, 1);
});

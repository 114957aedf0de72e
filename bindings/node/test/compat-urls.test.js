'use strict';
// How URLs and paths are resolved: values by hand, and the package where it is installed.

const test = require('node:test');
const assert = require('node:assert/strict');

const { resolve, sourceResolver } = require('../compat/urls.js');
const { random, peer, needs } = require('./support.js');

const theirs = peer('@jridgewell/resolve-uri');

const CASES = [
  ['', '', ''],
  ['a.js', '', 'a.js'],
  ['./a.js', '', './a.js'],
  ['../a.js', '', '../a.js'],
  ['a//b/./c/../d', '', 'a/b/d'],
  ['a/b/..', '', 'a/'],
  ['.', '', '.'],
  ['a.js', 'dir/', 'dir/a.js'],
  ['a.js', 'dir/b.js', 'dir/a.js'],
  ['a.js', './dir/', './dir/a.js'],
  ['../a.js', 'dir/', 'a.js'],
  ['../../a.js', 'dir/', '../a.js'],
  ['../a.js', '/', '/a.js'],
  ['/a.js', 'https://x.org/dir/', 'https://x.org/a.js'],
  ['//y.org/a.js', 'https://x.org/dir/', 'https://y.org/a.js'],
  ['../../../a.js', 'https://x.org/dir/', 'https://x.org/a.js'],
  ['https://y.org', 'https://x.org/dir/', 'https://y.org/'],
  ['webpack:///./src/a.js', 'https://x.org/', 'webpack:///src/a.js'],
  ['a.js', 'https://u:p@x.org:80/dir/b?q#h', 'https://u:p@x.org:80/dir/a.js'],
  ['?q', 'dir/b.js?p#h', 'dir/b.js?q'],
  ['#h', 'dir/b.js?p#g', 'dir/b.js?p#h'],
  ['', 'dir/b.js?p#g', 'dir/b.js?p#g'],
  ['#h', '?q', '?q#h'],
  ['a.js', 'file:///c:/dir/b.js', 'file:///c:/dir/a.js'],
  ['file:c:/a.js', '', 'file:///c:/a.js'],
];

for (const [input, base, expected] of CASES) {
  test(`${JSON.stringify(input)} from ${JSON.stringify(base)} is ${JSON.stringify(expected)}`, () => {
    assert.equal(resolve(input, base), expected);
  });
}

test('sources are resolved against the root, and that against the URL of the map', () => {
  const from = (root, url) => ['a.js', '../a.js', '/a.js', 'https://y.org/a.js', null].map(sourceResolver(root, url));
  assert.deepEqual(from(undefined, undefined), ['a.js', '../a.js', '/a.js', 'https://y.org/a.js', '']);
  assert.deepEqual(from('', 'dir/b.map'), ['dir/a.js', 'a.js', '/a.js', 'https://y.org/a.js', 'dir/']);
  assert.deepEqual(from('root', 'dir/b.map'), ['dir/root/a.js', 'dir/a.js', '/a.js', 'https://y.org/a.js', 'dir/root/']);
  assert.deepEqual(from('https://x.org/r', 'dir/b.map').slice(0, 3), ['https://x.org/r/a.js', 'https://x.org/a.js', 'https://x.org/a.js']);
});

const PIECES = ['a', 'b.js', '.', '..', '', '/', '//', '?', '?q', '#', '#h', 'http://', 'https://h', 'file:', 'file://', 'C:', 'u@', ':80', ':x', 'é', '\n'];

function randomReference(next) {
  return Array.from({ length: next(5) }, () => PIECES[next(PIECES.length)] + (next(3) > 0 ? '/' : '')).join('');
}

test('sources that say nothing but a path, and bases that are not whole', () => {
  assert.equal(sourceResolver('https://x.org/d?q', '')('x.js'), 'https://x.org/x.js');
  assert.equal(sourceResolver('https://x.org/d', '')('b/x.js'), 'https://x.org/d/b/x.js');
  assert.deepEqual(['a/b/..', 'a/.', '.a', 'a/./b', 'a//b', 'a.b/c'].map(sourceResolver('', '')), ['a/', 'a', '.a', 'a/b', 'a/b', 'a.b/c']);
});

test('random references beside the package', needs('@jridgewell/resolve-uri', theirs), () => {
  const next = random(5);
  for (let count = 0; count < 20_000; count++) {
    const [input, base] = [randomReference(next), randomReference(next)];
    assert.equal(resolve(input, base), theirs(input, base), JSON.stringify([input, base]));
  }
});

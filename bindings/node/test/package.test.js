'use strict';
// What the package is made of: the calls of the addon are those of native.d.ts and reach all of the header, and CJS, ESM and the types
// have the same names.

const test = require('node:test');
const assert = require('node:assert/strict');
const { readFileSync, readdirSync, existsSync } = require('node:fs');
const { join } = require('node:path');
const vm = require('node:vm');

const library = require('..');
const native = require('../lib/native.js');
const constants = require('../lib/constants.js');
const { REPOSITORY } = require('./support.js');

const read = (path) => readFileSync(join(__dirname, '..', path), 'utf8');
const all = (text, pattern) => [...text.matchAll(pattern)].map((it) => it[1]);
const header = join(REPOSITORY, 'bindings/c/oxc_sourcemap.h');
const needsHeader = { skip: !existsSync(header) && 'the repository is not here' };

test('the addon has what native.d.ts says', () => {
  const body = read('lib/native.d.ts').split('export interface Native {')[1].split('\n}')[0];
  const said = all(body, /^ {2}(?:readonly )?(\w+)[(:]/gm);
  assert.deepEqual(Object.keys(native).sort(), said.sort());
  assert.deepEqual([native.version, native.words.length, native.fault.length], [2, 16, 18]);
});

test('the addon makes all calls of the header', needsHeader, () => {
  const calls = new Set(all(readFileSync(header, 'utf8'), /\b(smap_\w+)\(/g));
  const made = new Set(readdirSync(join(__dirname, '../src')).flatMap((it) => all(read(`src/${it}`), /\b(smap_\w+)\b/g)));
  // The addon counts the handles of shared maps itself. A file that the system maps may be cut while JavaScript reads it, which ends the
  // process.
  assert.deepEqual([...calls].filter((it) => !made.has(it)), ['smap_share_map', 'smap_retain_map', 'smap_map_file', 'smap_free_file']);
  assert.equal(calls.size, 106);
});

test('the constants are those of the header', needsHeader, () => {
  const text = readFileSync(header, 'utf8');
  const value = (name) => Number(text.match(new RegExp(`\\b${name} = (\\d+)`))[1]);
  const { Bias, Direction, Language, Kind, Code, Which, Words, MENDS, PLACES, SCOPES_FAULTS } = constants;
  for (const them of [Bias, Direction, Kind, Code]) {
    for (const [name, number] of Object.entries(them)) if (!['SHARED', 'NO_THREADS'].includes(name)) assert.equal(number, value(`SMAP_${name}`), name);
  }
  for (const [name, number] of Object.entries(Which)) assert.equal(number, value(`SMAP_TEXT_${name === 'CONTENT' ? 'SOURCE_CONTENT' : name}`));
  for (const [name, number] of Object.entries(Language)) assert.equal(number, value(`SMAP_${name}`));
  for (const [name, words] of Object.entries(Words)) assert.match(text, new RegExp(`SMAP_HAS_SIZE\\(smap_${name}, 0, ${4 * words}\\)`, 'i'));
  assert.deepEqual(MENDS.slice(1), all(text, /^ {4}SMAP_MEND_(\w+) = \d+/gm));
  const faults = text.split('`field` of SMAP_BAD_SCOPES')[1].split('};')[0];
  assert.deepEqual(SCOPES_FAULTS.slice(1), all(faults, /^ {4}SMAP_SCOPES_(\w+) = \d+/gm));
  assert.deepEqual(all(read('lib/scopes.d.ts').split('export type ScopesFault =')[1].split(';')[0], /"(\w+)"/g), SCOPES_FAULTS.slice(1));
  assert.deepEqual(PLACES.slice(1), all(text, /^ {4}SMAP_PLACE_(\w+) = [1-9]/gm).map((it) => it.toLowerCase()));
  const fields = all(text, /^ {4}SMAP_FIELD_(\w+) = \d+/gm);
  assert.equal(constants.FIELDS.length, fields.length);
  const plain = (it) => it.replaceAll('_', '').toLowerCase().replace(/^x/, '').replace(/^object$/, 'value');
  assert.deepEqual(constants.FIELDS.map(plain), fields.map(plain));
});

test('codes have their names', needsHeader, () => {
  const text = readFileSync(header, 'utf8').split('The codes of errors')[1].split('};')[0];
  const types = read('lib/index.d.ts').split('export type Code =')[1].split(';')[0];
  for (const [, name, number] of text.matchAll(/\b(SMAP_\w+) = (\d+)/g)) {
    assert.equal(native.codeName(Number(number)), name);
    assert.ok(name === 'SMAP_OK' || types.includes(`"${name}"`), name);
  }
  assert.equal(native.codeName(9999), 'SMAP_UNKNOWN');
});

test('CJS, ESM and the types have the same names', async () => {
  const names = Object.keys(library).sort();
  const { default: whole, ...module } = await import('../lib/index.mjs');
  assert.equal(whole, library);
  assert.equal(library.default, library);
  assert.deepEqual(Object.keys(module).sort(), names);
  const types = read('lib/index.d.ts') + read('lib/scopes.d.ts');
  assert.deepEqual([...new Set(all(types, /^export (?:const|class|function) (\w+)/gm))].sort(), names);
  for (const name of ['SourceMap', 'CompiledMap', 'Scopes', 'SourceMapBuilder', 'ConcatSourceMapBuilder']) {
    const body = types.split(`export class ${name} {`)[1].split('\n}')[0];
    const said = new Set(all(body, /^ {2}(?:static |readonly |private )*(\w+)[<(:]/gm));
    const { prototype } = library[name];
    const own = [...Object.getOwnPropertyNames(prototype), ...Object.getOwnPropertyNames(library[name]).filter((it) => !['length', 'name', 'prototype'].includes(it))];
    assert.deepEqual([...said].sort(), own.sort(), name);
    assert.equal(prototype[Symbol.dispose], prototype.free);
  }
});

test('what README.md names is in the archive', () => {
  const { files, exports: names } = JSON.parse(read('package.json'));
  const isPacked = (path) => files.some((it) => path === it || path.startsWith(`${it}/`));
  for (const file of ['README.md', 'compat/README.md']) {
    const text = read(file);
    for (const link of all(text, /\]\(([^)#]+)/g)) assert.ok(isPacked(join(file, '..', link)) && existsSync(join(__dirname, '..', file, '..', link)), link);
    for (const [, name] of text.matchAll(/`junketscarp(\/[\w./-]+)`/g)) assert.ok(Object.hasOwn(names, `.${name}`), name);
    assert.doesNotMatch(text, /\.\/(?:build|check)|\b(?:bench|test|tools|docs|crates|bindings|packages|src)\//, file);
  }
  const table = (text) => all(text, /^\| `junketscarp\/([\w-]+)` \|/gm).sort();
  const known = Object.keys(names).map((it) => it.slice(2)).filter((it) => existsSync(join(__dirname, '../compat', `${it}.mjs`))).sort();
  assert.deepEqual(table(read('README.md')), known);
  assert.deepEqual(table(read('compat/README.md')), known);
});

test('the version is that of the changelog, and nothing is depended on', needsHeader, () => {
  const said = JSON.parse(read('package.json'));
  assert.equal(said.version, readFileSync(join(REPOSITORY, 'docs/CHANGELOG.md'), 'utf8').match(/^## (.*)/m)[1]);
  assert.deepEqual([said.dependencies, said.optionalDependencies, said.peerDependencies], [undefined, undefined, undefined]);
});

test('the examples of the documentation', () => {
  const examples = all(read('README.md'), /```js\n([^]*?)```/g).filter((it) => !/require\('node:fs'\)|^import /m.test(it));
  assert.ok(examples.length > 0);
  for (const example of examples) {
    const lines = example.split('\n').map((line) => line.replace(/^((?:map\.|scopes\.|stackAt\(|\[\.\.\.map).*); \/\/ (.*)$/, 'assert.deepEqual($1, $2);'));
    vm.runInThisContext(`(require, assert) => {${lines.join('\n')}}`)((name) => (assert.equal(name, 'junketscarp'), library), assert);
  }
});

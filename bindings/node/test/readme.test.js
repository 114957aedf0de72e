'use strict';
// The three jobs that README.md of the package shows, as they are written there, and what the documents of the repository show.

const test = require('node:test');
const assert = require('node:assert/strict');
const fs = require('node:fs');
const { execFileSync } = require('node:child_process');
const { join } = require('node:path');
const { tmpdir } = require('node:os');

const { REPOSITORY } = require('./support.js');

const documents = ['README.md', 'docs/javascript.md'].map((it) => join(REPOSITORY, it));
const needsDocuments = { skip: !documents.every((it) => fs.existsSync(it)) && 'the repository is not here' };

const isJob = (text) => text.includes("require('node:fs')");
const blocksOf = (path) => [...fs.readFileSync(path, 'utf8').matchAll(/```js\n([^]*?)```/g)].map((it) => it[1]);
const jobs = blocksOf(join(__dirname, '../README.md')).filter(isJob);
assert.equal(jobs.length, 3);

/** Runs a block, as a file, in a folder with these files and the package; what it prints, and reads of the folder. */
function run(block, files) {
  const room = fs.mkdtempSync(join(tmpdir(), 'junketscarp-'));
  process.once('exit', () => fs.rmSync(room, { recursive: true }));
  fs.mkdirSync(join(room, 'node_modules'));
  fs.symlinkSync(join(__dirname, '..'), join(room, 'node_modules/junketscarp'));
  for (const [name, text] of Object.entries({ ...files, 'example.js': block })) fs.writeFileSync(join(room, name), text);
  const said = execFileSync(process.execPath, ['example.js'], { cwd: room, encoding: 'utf8' });
  return { said, read: (path) => fs.readFileSync(join(room, path), 'utf8') };
}

test('a bundler', () => {
  const { read } = run(jobs[0], {
    'a.js.map': '{"version":3,"sources":["a.js"],"mappings":"AAAA,IAAI"}',
    'b.js.map': '{"version":3,"sources":["b.js"],"mappings":"AAAA"}',
    'a.ts.map': '{"version":3,"sources":["a.ts"],"mappings":"AAEA,IAAI"}',
  });
  const written = JSON.parse(read('bundle.js.map'));
  assert.deepEqual(written.sources, ['a.ts', 'b.js']);
  assert.equal(written.file, 'bundle.js');
  assert.equal(written.mappings, 'AAEA,IAAI;ACFJ');
});

test('a resolver of stack traces', () => {
  const { said } = run(jobs[1], { 'app.js.map': '{"version":3,"sources":["a.ts"],"mappings":"AAEA,IAAI"}' });
  assert.equal(said, 'a.ts:3:5\n');
});

test('a coverage tool', () => {
  const { said } = run(jobs[2], { 'app.js.map': '{"version":3,"sources":["a.ts","b.ts"],"mappings":"AAEA,I,EACA,ECDA,KAEA"}' });
  assert.equal(said, 'a.ts:3 a.ts:4 b.ts:3\n');
});

test('the documents of the repository', needsDocuments, () => {
  const blocks = documents.flatMap(blocksOf);
  assert.deepEqual(blocks.filter((it) => isJob(it) && !jobs.includes(it)), []);
  const others = blocks.filter((it) => !isJob(it));
  assert.equal(others.length, 1);
  assert.equal(run(others[0], {}).said, "{ source: 'a.ts', line: 2, column: 4, name: 'f', index: 1 }\n4\n{ line: 0, column: 4 }\n");
});

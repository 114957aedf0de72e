'use strict';
// The plugins for bundlers: in a bundle of two modules, one of which was made from another file, each position leads to what was written.

const test = require('node:test');
const assert = require('node:assert/strict');
const { mkdtempSync, mkdirSync, rmSync, writeFileSync, readFileSync } = require('node:fs');
const { execFileSync, spawnSync } = require('node:child_process');
const { tmpdir } = require('node:os');
const { join, relative } = require('node:path');

const { SourceMap } = require('..');
const { peer, needs } = require('./support.js');
const { ledBack } = require('../plugins/leading.js');

// a.js was made of src/a.ts, two lines below and four columns to the right.
const MAP = { version: 3, sourceRoot: '../src', sources: ['a.ts'], sourcesContent: ["\n\n    export const one = 'one of a';\n"], names: [], mappings: 'AAEI,IAAI' };
const FILES = {
  'src/app.js': "import { one } from '../made/a.js';\nimport { two } from './b.js';\nconsole.log(one, two);\n",
  'src/b.js': "export const two = 'two of b';\n",
  'made/a.js': "export const one = 'one of a';\n",
  'made/a.js.map': JSON.stringify(MAP),
};
const NAMED = { ...FILES, 'made/a.js': `${FILES['made/a.js']}//# sourceMappingURL=maps/a.map\n`, 'made/maps/a.map': JSON.stringify({ ...MAP, sourceRoot: undefined, sources: ['../../src/a.ts'] }), 'made/a.js.map': '{' };
const data = `data:application/json;base64,${Buffer.from(JSON.stringify({ ...MAP, sourceRoot: '' , sources: ['../src/a.ts'] })).toString('base64')}`;
const INLINE = { ...FILES, 'made/a.js': `${FILES['made/a.js']}//# sourceMappingURL=${data}\n`, 'made/a.js.map': '{' };

/** Runs in a folder with these files. */
async function within(files, run) {
  const room = mkdtempSync(join(tmpdir(), 'junketscarp-'));
  try {
    for (const [name, text] of Object.entries(files)) {
      mkdirSync(join(room, name, '..'), { recursive: true });
      writeFileSync(join(room, name), text);
    }
    return await run(room);
  } finally {
    rmSync(room, { recursive: true });
  }
}

/** Where a piece of a bundle's code leads. */
function placeOf(code, map, piece) {
  const at = code.indexOf(piece);
  assert.ok(at >= 0, piece);
  const lines = code.slice(0, at).split('\n');
  const { source, line, column } = map.trace(lines.length - 1, lines.at(-1).length);
  return { source, line, column };
}

/** Looks at the code and the map of a bundle in a folder of `room`: `of` names a file as the bundler does. */
function check(code, given, { of, isExact = true }) {
  const map = new SourceMap(given);
  const a = placeOf(code, map, isExact ? 'const one' : "'one of a'");
  assert.equal(a.source, of('src/a.ts'));
  assert.equal(a.line, 2);
  if (isExact) assert.equal(a.column, 8);
  const b = placeOf(code, map, "'two of b'");
  assert.equal(b.line, 0);
  assert.ok(b.source.endsWith('src/b.js'), b.source);
  assert.equal(map.sources.some((it) => it.endsWith('made/a.js')), false);
  assert.equal(map.getSourceContent(of('src/a.ts')), MAP.sourcesContent[0]);
}

test('the map of a bundle, led back', async () => {
  const bundle = { version: 3, file: 'out.js', sources: ['../made/a.js', '../src/b.js', 'https://x.org/c.js'], names: [], mappings: 'AAAA,OAAO;ACAP;ACAA', x_a: 1 };
  for (const files of [FILES, NAMED, INLINE]) {
    await within(files, (room) => {
      const led = ledBack(bundle, join(room, 'out'));
      assert.deepEqual(led.sources, ['../src/a.ts', '../src/b.js', 'https://x.org/c.js']);
      assert.equal(led.file, 'out.js');
      assert.deepEqual(led.trace(0, 0), { source: '../src/a.ts', line: 2, column: 4, name: null, index: 0 });
      assert.deepEqual(led.trace(1, 0), { source: '../src/b.js', line: 0, column: 0, name: null, index: led.trace(1, 0).index });
    });
  }
  await within({ 'made/a.js': 'a' }, (room) => assert.equal(ledBack(bundle, join(room, 'out')), null));
  await within(FILES, (room) => {
    const asked = [];
    const mapOf = (file) => (asked.push(relative(room, file)), file.endsWith('b.js') ? { version: 3, sources: ['b.ts', 'webpack:///x'], names: [], mappings: 'AACA' } : null);
    assert.deepEqual(ledBack(bundle, join(room, 'out'), { mapOf }).sources.slice(0, 2), ['../src/a.ts', '../src/b.ts']);
    assert.deepEqual(asked.slice(0, 2), [join('made', 'a.js'), join('src', 'b.js')]);
    assert.equal(ledBack(bundle, join(room, 'out'), { fileOf: () => null }), null);
  });
});

const rollup = peer('rollup');
for (const [name, files] of Object.entries({ beside: FILES, named: NAMED, inline: INLINE })) {
  for (const sourcemap of [true, 'inline', 'hidden']) {
    test(`rollup: a map ${name}, sourcemap ${sourcemap}`, needs('rollup', rollup), () =>
      within(files, async (room) => {
        const plugin = require('../plugins/rollup.js');
        const built = await rollup.rollup({ input: join(room, 'src/app.js'), plugins: [plugin()] });
        await built.write({ file: join(room, 'out/app.js'), format: 'es', sourcemap });
        const code = readFileSync(join(room, 'out/app.js'), 'utf8');
        const inline = /sourceMappingURL=(data:.*)/.exec(code)?.[1];
        assert.equal(inline !== undefined, sourcemap === 'inline');
        const map = inline ? new URL(inline) : readFileSync(join(room, 'out/app.js.map'));
        check(code, map, { of: (it) => `../${it}` });
        assert.equal(new SourceMap(map).ignoreList, null);
      }));
  }
}

const esbuild = spawnSync('esbuild', ['--version']).status === 0 ? 'esbuild' : null;

/** What a plugin is told by the API of esbuild, of which Debian has the program alone: what it does when the build has ended. */
function atEnd(plugin, initialOptions) {
  let call;
  plugin.setup({ initialOptions, onEnd: (it) => (call = it) });
  assert.equal(initialOptions.metafile, true);
  return call;
}

for (const [name, write] of [['written', true], ['handed over', false]]) {
  test(`esbuild: a map beside, ${name}`, needs('esbuild', esbuild), () =>
    within(FILES, async (room) => {
      const end = atEnd(require('../plugins/esbuild.js')(), { absWorkingDir: room });
      execFileSync(esbuild, ['src/app.js', '--bundle', '--format=esm', '--sourcemap', '--outfile=out/app.js', '--metafile=meta.json', '--log-level=silent'], { cwd: room });
      const handedOver = ['out/app.js', 'out/app.js.map'].map((path) => ({ path: join(room, path), contents: readFileSync(join(room, path)), get text() { return this.contents.toString(); } }));
      const before = handedOver[1].text;
      await end(write ? { metafile: JSON.parse(readFileSync(join(room, 'meta.json'))) } : { outputFiles: handedOver });
      const of = (i) => (write ? readFileSync(handedOver[i].path, 'utf8') : handedOver[i].text);
      assert.notEqual(of(1), before);
      check(of(0).replaceAll('"', "'"), of(1), { of: (it) => `../${it}`, isExact: false });
    }));
}

/** Webpack, which may be there and not start: Debian's does so in Debian's Node alone. */
function starting() {
  try {
    const it = require('webpack');
    void it.Compilation;
    return it;
  } catch {
    return null;
  }
}
const webpack = starting();
test('webpack: a map beside', needs('webpack', webpack), () =>
  within(FILES, async (room) => {
    const Plugin = require('../plugins/webpack.js');
    const options = { mode: 'development', context: room, entry: './src/app.js', devtool: 'source-map', output: { path: join(room, 'out'), filename: 'app.js' }, plugins: [new Plugin()] };
    const stats = await new Promise((resolve, reject) => webpack(options, (error, it) => (error ? reject(error) : resolve(it))));
    assert.deepEqual(stats.toJson({ all: false, errors: true }).errors, []);
    check(readFileSync(join(room, 'out/app.js'), 'utf8'), readFileSync(join(room, 'out/app.js.map')), { of: (it) => `../${it}`, isExact: false });
  }));

test('the plugins are imported as they are required', async () => {
  for (const name of ['rollup', 'esbuild', 'webpack']) {
    const own = require(`../plugins/${name}.js`);
    assert.equal((await import(`../plugins/${name}.mjs`)).default, own);
    assert.equal(own.default, own);
  }
});

'use strict';
// bundles.js FOLDER   bundles a program that uses the package, which is installed in the folder, by the bundlers that are installed (esbuild,
// rollup, webpack; for Node and for browsers, and minified, by terser, too). Each bundle is moved into an empty folder and runs there: it
// has to say what stands below, and its bundler may say nothing. It prints which bundlers there are; NODE_PATH has those of Debian.

const assert = require('node:assert/strict');
const { spawnSync } = require('node:child_process');
const { copyFileSync, mkdirSync, mkdtempSync, readdirSync, realpathSync, rmSync, writeFileSync } = require('node:fs');
const { tmpdir } = require('node:os');
const { delimiter, join } = require('node:path');

const [folder] = process.argv.slice(2);
const room = mkdtempSync(join(tmpdir(), 'bundles-'));
const MAP = '{"version":3,"sources":["a.ts"],"names":["f"],"mappings":"AAEA,IAAIA"}';
const SAYS = 'a.ts 2 4 f\nTypeError: It is not a SourceMap\n';
const CLASS = `
const text = '${MAP}';
const { source, line, column, name } = new SourceMap(text).trace(0, 5);
console.log(source, line, column, name);
try { new SourceMap(text).compose({}); } catch (error) { console.log(String(error)); }`;
// What each program says beside: the places that the modules in the places of others tell.
const PLACES = ['a.ts 3 4 f', 'a.ts 3 4 f', 'AAEA,IAAIA', 'IAEA'];
const MODULES = `
const found = originalPositionFor(new TraceMap(text), { line: 1, column: 5 });
const consumer = new SourceMapConsumer(text).originalPositionFor({ line: 1, column: 5 });
for (const it of [found, consumer]) console.log(it.source, it.line, it.column, it.name);
console.log(remapping(text, () => null).mappings);
const map = new GenMapping();
addSegment(map, 0, 4, 'a.ts', 2, 0);
console.log(toEncodedMap(map).mappings);`;
const NAMES = {
  junketscarp: '{ SourceMap }',
  'junketscarp/trace-mapping': '{ TraceMap, originalPositionFor }',
  'junketscarp/source-map': '{ SourceMapConsumer }',
  'junketscarp/remapping': 'remapping',
  'junketscarp/gen-mapping': '{ GenMapping, addSegment, toEncodedMap }',
};
const lines = (form) => Object.entries(NAMES).map(([it, names]) => form(it, names)).join('');
const PROGRAMS = {
  'imports.mjs': lines((it, names) => `import ${names} from '${it}';\n`) + CLASS + MODULES,
  'requires.cjs': lines((it, names) => `const ${names} = require('${it}');\n`) + CLASS + MODULES,
  'class.mjs': `import { SourceMap } from 'junketscarp';${CLASS}`,
  'inline.mjs': `import { SourceMap } from 'junketscarp/inline';${CLASS}`,
};

const inFolder = (name) => join(folder, name);

/** Where a program is; null if it is not installed. */
function found(name) {
  for (const it of process.env.PATH.split(delimiter)) {
    try {
      return realpathSync(join(it, name));
    } catch {
      // it is not in this folder
    }
  }
  return null;
}

/** Runs a program, which has to end well and to say nothing. */
function silently(words) {
  const { status, stdout, stderr } = spawnSync(words[0], words.slice(1), { cwd: folder, encoding: 'utf8' });
  assert.deepEqual([status, stderr, stdout], [0, '', ''], words.join(' '));
}

/** Runs what is in a folder of its own, far from the package. */
function runs(bundle, says) {
  const empty = mkdtempSync(join(room, 'moved-'));
  const name = bundle.endsWith('.mjs') ? 'it.mjs' : 'it.cjs';
  copyFileSync(bundle, join(empty, name));
  const { JUNKETSCARP_ADDON, NODE_PATH, ...env } = process.env;
  const { stdout, stderr } = spawnSync(process.execPath, [name], { cwd: empty, env, encoding: 'utf8' });
  assert.deepEqual([stdout, stderr], [says, ''], bundle);
}

const whole = `${SAYS}${PLACES.join('\n')}\n`;
const saysOf = (program) => (['class.mjs', 'inline.mjs'].includes(program) ? SAYS : whole);

// ---- the bundlers ----

const terser = found('terser');

/** The bundle, minified as terser does it. */
function minified(bundle) {
  const out = bundle.replace(/\.(\w+)$/, '.min.$1');
  const form = bundle.endsWith('.mjs') ? ['--module'] : [];
  silently([process.execPath, terser, bundle, '--compress', '--mangle', ...form, '--output', out]);
  return out;
}

function byEsbuild(program, out, ...options) {
  const bundle = join(room, out);
  silently(['esbuild', program, '--bundle', '--log-level=warning', ...options, `--outfile=${bundle}`]);
  runs(bundle, saysOf(program));
  return bundle;
}

function esbuild() {
  if (found('esbuild') === null) return false;
  const bundle = byEsbuild('imports.mjs', 'imports.cjs', '--platform=node');
  if (terser !== null) runs(minified(bundle), saysOf('imports.mjs'));
  byEsbuild('imports.mjs', 'imports.mjs', '--platform=node', '--format=esm');
  byEsbuild('requires.cjs', 'requires.min.cjs', '--platform=node', '--minify');
  byEsbuild('class.mjs', 'browser.mjs', '--format=esm', '--minify');
  byEsbuild('imports.mjs', 'browser-modules.mjs', '--format=esm');
  return true;
}

function rollup() {
  const program = found('rollup');
  if (program === null) return false;
  // (it takes no names of packages and no `require` without plugins)
  const bundle = join(room, 'rollup.mjs');
  writeFileSync(inFolder('rollup.mjs'), PROGRAMS['inline.mjs'].replace('junketscarp/inline', './node_modules/junketscarp/wasm/inline.mjs'));
  silently([process.execPath, program, 'rollup.mjs', '--format=es', '--silent', '--file', bundle]);
  runs(bundle, saysOf('inline.mjs'));
  if (terser !== null) runs(minified(bundle), saysOf('inline.mjs'));
  return true;
}

/** The bundle of a program, for which webpack says nothing, and the names of all its files. */
function byWebpack(webpack, program, options) {
  const path = join(room, `webpack-${options.target}`);
  const config = { context: folder, mode: 'production', entry: `./${program}`, output: { path, filename: 'it.cjs' }, ...options };
  return new Promise((resolve, reject) => {
    webpack(config, (error, stats) => {
      if (error) return reject(error);
      const { errors, warnings } = stats.toJson({ all: false, errors: true, warnings: true });
      // (a bundle with a module in it is large)
      const said = [...errors, ...warnings].filter(({ message }) => !/(size|performance) /.test(message));
      return said.length > 0 ? reject(new Error(JSON.stringify(said))) : resolve({ bundle: join(path, 'it.cjs'), files: readdirSync(path) });
    });
  });
}

/** That of Debian starts in Debian's Node alone. */
function webpackModule() {
  try {
    return require('webpack');
  } catch {
    return null;
  }
}

async function webpack() {
  const it = webpackModule();
  if (it === null) return false;
  for (const program of ['imports.mjs', 'requires.cjs']) {
    const { bundle } = await byWebpack(it, program, { target: 'node' });
    runs(bundle, saysOf(program));
  }
  const { files } = await byWebpack(it, 'class.mjs', { target: 'web', experiments: { topLevelAwait: true } });
  assert.ok(files.some((name) => name.endsWith('.wasm')), files.join(' '));
  return true;
}

async function main() {
  mkdirSync(room, { recursive: true });
  for (const [name, program] of Object.entries(PROGRAMS)) writeFileSync(inFolder(name), program);
  try {
    for (const run of [esbuild, rollup, webpack]) console.log(`${run.name}: ${(await run()) ? 'passed' : 'is not installed, or does not start'}`);
    console.log(`terser: ${terser === null ? 'is not installed' : 'passed'}`);
  } finally {
    rmSync(room, { recursive: true });
  }
}

main();

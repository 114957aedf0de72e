'use strict';
// The drop-in modules as they are required and imported, their types, and the packages that hand on to them.

const test = require('node:test');
const assert = require('node:assert/strict');
const { mkdtempSync, cpSync, mkdirSync, rmSync, symlinkSync, readFileSync, writeFileSync, readdirSync } = require('node:fs');
const { tmpdir } = require('node:os');
const { dirname, join } = require('node:path');
const { execFileSync } = require('node:child_process');

const { peer, needs } = require('./support.js');

const ROOT = join(__dirname, '..');
const MODULES = {
  'trace-mapping': '@jridgewell/trace-mapping',
  'gen-mapping': '@jridgewell/gen-mapping',
  'sourcemap-codec': '@jridgewell/sourcemap-codec',
  remapping: '@ampproject/remapping',
};
/** And those that stand over these, or over nothing. */
const OTHERS = {
  'source-map': 'source-map-js',
  'source-map-async': 'source-map',
  'jridgewell-source-map': '@jridgewell/source-map',
  'convert-source-map': 'convert-source-map',
  'source-map-support': 'source-map-support',
};
const compat = (name) => join(ROOT, 'compat', name);

for (const [name, itsPeer] of Object.entries(MODULES)) {
  const theirs = peer(itsPeer);
  const ours = require(compat(`${name}.js`));

  test(`${name} is imported as it is required`, async () => {
    const { default: whole, ...named } = await import(compat(`${name}.mjs`));
    if (name === 'remapping') assert.equal(whole, ours);
    else assert.deepEqual(named, { ...ours });
  });

  test(`${name} has all that the package has`, needs(itsPeer, theirs), () => {
    for (const key of Object.keys(theirs)) assert.equal(typeof ours[key], typeof theirs[key], key);
    assert.equal(typeof ours, typeof theirs);
  });

  test(`the types of ${name} declare all of it`, () => {
    const types = readFileSync(compat(`${name}.d.ts`), 'utf8');
    for (const key of Object.keys(ours)) assert.match(types, new RegExp(`(export declare (function|const|class) ${key}\\b)|(as ${key}\\b)`), key);
  });
}

test('no module requires what the package has not', () => {
  for (const file of readdirSync(join(ROOT, 'compat')).filter((it) => it.endsWith('.js'))) {
    const required = [...readFileSync(compat(file), 'utf8').matchAll(/require\('([^']*)'\)/g)].map(([, it]) => it);
    for (const it of required) assert.match(it, /^(node:|\.\.?\/)/, `${file} requires ${it}`);
  }
});

/** What a script says where these packages have ours in their places, and `others` have files of their own, by their names. */
function saidWithOverrides(names, script, others = {}) {
  const room = mkdtempSync(join(tmpdir(), 'junketscarp-'));
  try {
    const modules = join(room, 'node_modules');
    mkdirSync(join(modules, 'junketscarp'), { recursive: true });
    for (const it of ['lib', 'compat', 'prebuilds']) symlinkSync(join(ROOT, it), join(modules, 'junketscarp', it));
    const manifest = JSON.parse(readFileSync(join(ROOT, 'package.json')));
    for (const name of names) {
      manifest.exports[`./${name}`] = { import: `./compat/${name}.mjs`, require: `./compat/${name}.js` };
      cpSync(join(ROOT, 'packages', name), join(modules, { ...MODULES, ...OTHERS }[name]), { recursive: true });
      assert.equal(JSON.parse(readFileSync(join(ROOT, 'packages', name, 'package.json'))).dependencies.junketscarp, manifest.version);
    }
    writeFileSync(join(modules, 'junketscarp/package.json'), JSON.stringify(manifest));
    for (const [name, from] of Object.entries(others)) from(join(modules, name));
    writeFileSync(join(room, 'script.js'), script);
    return execFileSync(process.execPath, ['script.js'], { cwd: room, env: { ...process.env, NODE_PATH: '' }, encoding: 'utf8' });
  } finally {
    rmSync(room, { recursive: true });
  }
}

test('the packages for overrides hand on', () => {
  const script = `
    const gen = require('@jridgewell/gen-mapping'), { TraceMap } = require('@jridgewell/trace-mapping');
    const remapping = require('@ampproject/remapping'), { decode } = require('@jridgewell/sourcemap-codec');
    const map = new gen.GenMapping();
    gen.addSegment(map, 0, 4, 'a', 2, 0);
    const text = remapping(new TraceMap(gen.toEncodedMap(map)), () => null).mappings;
    import('@ampproject/remapping').then((it) => console.log(text, JSON.stringify(decode(text)), it.default === remapping));`;
  assert.equal(saidWithOverrides(Object.keys(MODULES), script), 'IAEA [[[4,0,2,0]]] true\n');
});

test('so do the packages of the other modules', () => {
  const script = `
    const places = ${JSON.stringify(OTHERS)};
    (async () => {
      for (const [name, place] of Object.entries(places)) {
        const own = require('junketscarp/' + name);
        const { default: whole = own, ...named } = await import(place);
        console.log(require(place) === own, whole === own, Object.keys(named).filter((it) => it !== 'module.exports').join() === Object.keys(own).sort().join());
      }
    })();`;
  const said = saidWithOverrides(Object.keys(OTHERS), script);
  assert.equal(said, 'true true true\n'.repeat(5));
});

// A remapping of which the mappings of one map are led through that of its only source, as @ampproject/remapping 2.2.0 calls what it
// requires: gen-mapping by its names of 0.1.
const REMAPPING = `
  const { TraceMap, decodedMappings, traceSegment } = require('@jridgewell/trace-mapping');
  const gen = require('@jridgewell/gen-mapping');
  module.exports = (outer, loader, { decodedMappings: isDecoded } = {}) => {
    const map = new TraceMap(outer);
    const inner = new TraceMap(loader(map.resolvedSources[0]));
    const made = new gen.GenMapping({ file: map.file });
    decodedMappings(map).forEach((segments, line) => {
      for (const [column, , originalLine, originalColumn, name] of segments) {
        const found = traceSegment(inner, originalLine, originalColumn);
        gen.addSegment(made, line, column, inner.resolvedSources[found[1]], found[2], found[3], name === undefined ? '' : map.names[name]);
      }
    });
    return isDecoded ? gen.decodedMap(made) : gen.encodedMap(made);
  };`;
const LED = `
  const remapping = require('@ampproject/remapping');
  const outer = { version: 3, file: 'out.js', sources: ['b.js'], names: ['x'], mappings: 'IAAAA' };
  const inner = { version: 3, sources: ['a.ts'], names: [], mappings: 'AAEA' };
  for (const decodedMappings of [false, true]) {
    const { sources, names, mappings } = remapping(outer, (it) => (it === 'b.js' ? inner : null), { decodedMappings });
    console.log(JSON.stringify([sources, names, mappings]));
  }`;
const LEADS = '[["a.ts"],["x"],"IAEAA"]\n[["a.ts"],["x"],[[[4,0,2,0,0]]]]\n';
const PLACES = ['trace-mapping', 'gen-mapping', 'sourcemap-codec'];

test('an override of gen-mapping serves a package that requires it by its names of 0.1', () => {
  const written = (folder) => {
    mkdirSync(folder, { recursive: true });
    writeFileSync(join(folder, 'index.js'), REMAPPING);
  };
  assert.equal(saidWithOverrides(PLACES, LED, { '@ampproject/remapping': written }), LEADS);
});

const itsRemapping = peer('@ampproject/remapping');

test('and the remapping that is installed', needs('@ampproject/remapping', itsRemapping), () => {
  const installed = dirname(dirname(require.resolve('@ampproject/remapping')));
  const copied = (folder) => cpSync(installed, folder, { recursive: true, dereference: true });
  assert.equal(saidWithOverrides(PLACES, LED, { '@ampproject/remapping': copied }), LEADS);
});

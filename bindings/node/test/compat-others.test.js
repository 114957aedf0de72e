'use strict';
// The drop-ins that stand over others: source-map-js, source-map 0.7, @jridgewell/source-map, convert-source-map and source-map-support.

const test = require('node:test');
const assert = require('node:assert/strict');
const { execFileSync, spawnSync } = require('node:child_process');
const { mkdtempSync, rmSync, writeFileSync } = require('node:fs');
const { tmpdir } = require('node:os');
const { join } = require('node:path');

const { peer, needs, random, randomMap } = require('./support.js');

const COMPAT = join(__dirname, '../compat');
const js = require('../compat/source-map-js.js');
const async_ = require('../compat/source-map-async.js');
const both = require('../compat/jridgewell-source-map.js');
const convert = require('../compat/convert-source-map.js');
const sync = require('../compat/source-map.js');

const MAP = { version: 3, file: 'out.js', sources: ['a.ts', 'b.ts'], names: ['f'], sourcesContent: ['A', null], mappings: 'AAEA,IAAIA;CCAD' };
const plain = (it) => JSON.parse(JSON.stringify(it));

// ---- as they are imported, and their types ----

for (const name of ['source-map-js', 'source-map-async', 'jridgewell-source-map', 'convert-source-map', 'source-map-support']) {
  test(`${name} is imported as it is required, and declared`, () => {
    const script = `
      const own = require(${JSON.stringify(join(COMPAT, `${name}.js`))});
      const { readFileSync } = require('node:fs');
      import(${JSON.stringify(join(COMPAT, `${name}.mjs`))}).then(({ default: whole = own, ...named }) => {
        const types = ['${name}', 'source-map'].map((it) => readFileSync(${JSON.stringify(COMPAT)} + '/' + it + '.d.ts', 'utf8')).join('');
        for (const key of Object.keys(own)) {
          if (String(named[key]) !== String(own[key]) || whole[key] === undefined) throw new Error(key);
          if (!new RegExp('(function|const|class) ' + key + '\\\\b').test(types)) throw new Error('undeclared ' + key);
        }
        if (Object.keys(named).length !== Object.keys(own).length) throw new Error('more');
        console.log('same');
      });`;
    assert.equal(execFileSync(process.execPath, ['-e', script], { encoding: 'utf8' }), 'same\n');
  });
}

// ---- source-map-js ----

test('source-map-js passes over mappings that are none, if that is asked', () => {
  const { SourceMapGenerator, SourceMapConsumer } = js;
  assert.equal(SourceMapConsumer, sync.SourceMapConsumer);
  const said = [];
  const { warn } = console;
  console.warn = (text) => said.push(text);
  try {
    const made = new SourceMapGenerator({ file: 'o', ignoreInvalidMapping: true });
    made.addMapping({ generated: { line: 1, column: -1 }, original: { line: 1, column: 0 }, source: 'a' });
    made.addMapping({ generated: { line: 1, column: 2 }, original: { line: 1, column: 0 }, source: 'a' });
    assert.equal(made.toJSON().mappings, 'EAAA');
    assert.equal(said.length, 1);
    assert.match(said[0], /^Invalid mapping: /);
    const again = SourceMapGenerator.fromSourceMap(new SourceMapConsumer(made.toJSON()), { ignoreInvalidMapping: true, file: 'other' });
    again.addMapping({ generated: { line: 0, column: 0 } });
    assert.deepEqual([said.length, again.toJSON().file, again.toJSON().mappings], [2, 'o', 'EAAA']);
  } finally {
    console.warn = warn;
  }
  assert.throws(() => new SourceMapGenerator().addMapping({ generated: { line: 1, column: -1 } }), /^Error: Invalid mapping: /);
});

// ---- source-map 0.7 ----

test('consumers come as promises', async () => {
  const { SourceMapConsumer, SourceMapGenerator, SourceNode } = async_;
  const promise = new SourceMapConsumer(MAP);
  assert.ok(promise instanceof Promise);
  const consumer = await promise;
  assert.ok(consumer instanceof SourceMapConsumer);
  assert.equal(await new SourceMapConsumer(consumer), consumer);
  assert.deepEqual(consumer.originalPositionFor({ line: 1, column: 5 }), { source: 'a.ts', line: 3, column: 4, name: 'f' });
  assert.deepEqual([SourceMapConsumer.GENERATED_ORDER, SourceMapConsumer.ORIGINAL_ORDER, SourceMapConsumer.GREATEST_LOWER_BOUND, SourceMapConsumer.LEAST_UPPER_BOUND], [1, 2, 1, 2]);
  assert.equal(SourceMapConsumer.initialize({ 'lib/mappings.wasm': 'x' }), undefined);
  await assert.rejects(new SourceMapConsumer('{'), SyntaxError);
  await assert.rejects(new SourceMapConsumer({ version: 4, sources: [], mappings: '' }), /Unsupported version: 4/);
  const generator = SourceMapGenerator.fromSourceMap(consumer);
  const other = await SourceMapConsumer.fromSourceMap(generator, 'https://x.org/out.map');
  assert.deepEqual(other.sources, ['https://x.org/a.ts', 'https://x.org/b.ts']);
  assert.equal(SourceNode.fromStringWithSourceMap('ab', consumer).toString(), 'ab');
  consumer.destroy();
});

test('a consumer is destroyed when what uses it has ended', async () => {
  const { SourceMapConsumer } = async_;
  let kept;
  const use = (consumer) => {
    kept = consumer;
    return Promise.resolve(consumer.originalPositionFor({ line: 1, column: 5 }).name);
  };
  assert.equal(await SourceMapConsumer.with(JSON.stringify(MAP), null, use), 'f');
  assert.throws(() => kept.originalPositionFor({ line: 1, column: 5 }), { code: 'SMAP_NULL_HANDLE' });
  await assert.rejects(SourceMapConsumer.with(MAP, null, (it) => { kept = it; it.originalPositionFor({ line: 1, column: 0 }); throw new RangeError('no'); }), RangeError);
  assert.throws(() => kept.originalPositionFor({ line: 1, column: 0 }), { code: 'SMAP_NULL_HANDLE' });
  assert.deepEqual(await SourceMapConsumer.with(MAP, 'https://x.org/m', ({ sources }) => sources), ['https://x.org/a.ts', 'https://x.org/b.ts']);
  let isDone = false;
  await SourceMapConsumer.with(MAP, null, async (it) => {
    it.originalPositionFor({ line: 1, column: 0 });
    await new Promise(setImmediate);
    it.originalPositionFor({ line: 1, column: 0 });
    isDone = true;
  });
  assert.ok(isDone);
});

// ---- @jridgewell/source-map ----

test('the classes over trace-mapping and gen-mapping', () => {
  const { SourceMapConsumer, SourceMapGenerator } = both;
  const consumer = new SourceMapConsumer(MAP, 'https://x.org/out.map');
  assert.deepEqual(plain({ ...consumer, _map: 0 }), { version: 3, file: 'out.js', names: ['f'], sources: ['https://x.org/a.ts', 'https://x.org/b.ts'], sourcesContent: ['A', null], _map: 0 });
  assert.equal(consumer.mappings, MAP.mappings);
  assert.deepEqual({ ...consumer.originalPositionFor({ line: 1, column: 5 }) }, { source: 'https://x.org/a.ts', line: 3, column: 4, name: 'f' });
  assert.deepEqual({ ...consumer.generatedPositionFor({ source: 'a.ts', line: 3, column: 4 }) }, { line: 1, column: 4 });
  assert.deepEqual(consumer.allGeneratedPositionsFor({ source: 'b.ts', line: 4, column: 0 }).length, 0);
  assert.deepEqual(consumer.allGeneratedPositionsFor({ source: 'a.ts', line: 3, column: 0 }).map((it) => ({ ...it })), [{ line: 1, column: 0 }]);
  assert.equal(consumer.hasContentsOfAllSources(), false);
  assert.equal(new SourceMapConsumer({ ...MAP, sourcesContent: ['A', 'B'] }, null).hasContentsOfAllSources(), true);
  assert.equal(new SourceMapConsumer({ ...MAP, sourcesContent: ['A'] }, null).hasContentsOfAllSources(), false);
  assert.equal(new SourceMapConsumer({ ...MAP, sourcesContent: undefined }, null).hasContentsOfAllSources(), false);
  assert.deepEqual(['a.ts', 'https://x.org/a.ts', 'b.ts'].map((it) => consumer.sourceContentFor(it)), ['A', 'A', null]);
  assert.equal(consumer.sourceContentFor('c.ts', true), null);
  assert.throws(() => consumer.sourceContentFor('c.ts'), { message: '"c.ts" is not in the SourceMap.' });
  const seen = [];
  consumer.eachMapping(function (it) { this.push(it.generatedColumn); }, seen);
  consumer.eachMapping((it) => seen.push(it.generatedLine));
  assert.deepEqual(seen, [0, 4, 1, 1, 1, 2]);
  assert.equal(consumer.destroy(), undefined);

  const generator = SourceMapGenerator.fromSourceMap(new SourceMapConsumer(MAP));
  assert.deepEqual(plain(generator.toJSON()), plain({ ...MAP }));
  assert.equal(String(generator), JSON.stringify(generator));
  assert.deepEqual(generator.toDecodedMap().mappings, [[[0, 0, 2, 0], [4, 0, 2, 4, 0]], [[1, 1, 2, 3]]]);
  assert.deepEqual(SourceMapConsumer.fromSourceMap(generator, 'https://x.org/m').sources, consumer.sources);
  assert.equal(SourceMapConsumer.fromSourceMap(consumer).mappings, MAP.mappings);
  const made = new SourceMapGenerator({ file: 'x' });
  made.addMapping({ generated: { line: 1, column: 0 }, original: { line: 1, column: 0 }, source: 'a' });
  made.addMapping({ generated: { line: 1, column: 3 }, original: { line: 1, column: 0 }, source: 'a' });
  made.setSourceContent('a', 'A');
  assert.deepEqual([made.toJSON().mappings, made.toJSON().sourcesContent, made.toJSON().file], ['AAAA', ['A'], 'x']);
  assert.equal(new SourceMapGenerator(new (require('../compat/gen-mapping.js').GenMapping)({ file: 'y' })).toJSON().file, 'y');
});

const theirBoth = peer('@jridgewell/source-map');
test('beside @jridgewell/source-map', needs('@jridgewell/source-map', theirBoth), () => {
  for (let seed = 0; seed < 60; seed++) {
    const next = random(seed);
    const { json } = randomMap(seed);
    const [ours, theirs] = [both, theirBoth].map(({ SourceMapConsumer }) => new SourceMapConsumer(json, 'https://x.org/d/m'));
    for (const key of ['file', 'names', 'sourceRoot', 'sources', 'sourcesContent']) assert.deepEqual(ours[key], theirs[key]);
    for (let i = 0; i < 40; i++) {
      const asked = { line: 1 + next(8), column: next(40), bias: next(2) ? 1 : -1 };
      assert.deepEqual({ ...ours.originalPositionFor(asked) }, { ...theirs.originalPositionFor(asked) });
    }
    const [made, itsMade] = [both, theirBoth].map(({ SourceMapGenerator }) => new SourceMapGenerator({ file: 'o' }));
    for (let i = 0; i < 20; i++) {
      const mapping = { generated: { line: 1 + next(3), column: next(20) }, original: { line: 1 + next(3), column: next(9) }, source: `s${next(3)}`, name: next(2) ? 'n' : undefined };
      for (const it of [made, itsMade]) it.addMapping(mapping);
    }
    for (const it of [made, itsMade]) it.setSourceContent('s1', 'C');
    assert.deepEqual(plain(made.toJSON()), plain(itsMade.toJSON()));
    assert.deepEqual(plain(made.toDecodedMap()), plain(itsMade.toDecodedMap()));
  }
});

// ---- convert-source-map ----

const BASE64 = Buffer.from(JSON.stringify({ version: 3, sources: ['größe'] })).toString('base64');
const URI = encodeURIComponent('{"version":3,"sources":["größe, */"]}');

test('comments and the maps in them', async () => {
  const data = `data:application/json;charset=utf-8;base64,${BASE64}`;
  const of = (it) => convert.fromSource(it)?.getProperty('sources')[0] ?? null;
  for (const text of [`//# sourceMappingURL=${data}`, `/*# sourceMappingURL=${data} */`, `//@ sourceMappingURL=${data}`, `a;\n  //# sourceMappingURL=data:text/json;base64,${BASE64}\nb`, `/*@ sourceMappingURL=data:application/json;charset:utf-8;base64,${BASE64}*/`]) {
    assert.equal(of(text), 'größe', text);
    assert.equal(convert.removeComments(text).includes('sourceMappingURL'), false);
    assert.equal(convert.fromComment(text.split('\n').find((it) => it.includes('data:')).trim()).toObject().version, 3);
  }
  assert.equal(of(`//# sourceMappingURL=data:application/json;charset=utf-8,${URI}`), 'größe, */');
  assert.equal(of(`//# sourceMappingURL=data:application/json;base64,${Buffer.from('{"sources":["1"]}').toString('base64')}\n//# sourceMappingURL=${data}`), 'größe');
  for (const none of ['', 'a //# sourceMappingURL=x', `a //# sourceMappingURL=${data}`, `//# sourceMappingURL=data:text/plain;base64,${BASE64}`, '// sourceMappingURL=data:,x']) assert.equal(of(none), null, none);

  const it = convert.fromObject({ version: 3, sources: [] });
  assert.equal(it.toJSON(), '{"version":3,"sources":[]}');
  assert.equal(it.toJSON(1), '{\n "version": 3,\n "sources": []\n}');
  assert.equal(it.addProperty('file', 'ü').setProperty('x', 1), it);
  assert.throws(() => it.addProperty('file', 'b'), { message: 'property "file" already exists on the sourcemap, use set property instead' });
  assert.notEqual(it.toObject(), it.sourcemap);
  for (const form of [{}, { multiline: true }, { encoding: 'uri' }, { encoding: 'uri', multiline: true }]) assert.deepEqual(convert.fromSource(it.toComment(form)).toObject(), it.toObject(), it.toComment(form));
  assert.match(it.toComment({ multiline: true }), /^\/\*# sourceMappingURL=data:application\/json;charset=utf-8;base64,\S+ \*\/$/);
  assert.deepEqual(convert.fromURI(it.toURI().split(',')[1]).toObject(), it.toObject());
  assert.deepEqual(convert.fromBase64(it.toBase64()).toObject(), it.toObject());
  assert.throws(() => convert.fromJSON('{'), SyntaxError);

  const json = '{"sources":["a"]}';
  for (const code of ['x\n//# sourceMappingURL=m.map', 'x\n/*# sourceMappingURL=m.map */\n', '//@ sourceMappingURL=n.map\n//# sourceMappingURL=m.map  ']) {
    const names = [];
    assert.deepEqual(convert.fromMapFileSource(code, (name) => (names.push(name), json)).toObject(), { sources: ['a'] });
    assert.deepEqual((await convert.fromMapFileSource(code, async () => json)).toObject(), { sources: ['a'] });
    assert.deepEqual(names, ['m.map']);
    assert.equal(convert.removeMapFileComments(code).includes('sourceMappingURL'), false);
  }
  assert.equal(convert.fromMapFileSource('x', () => assert.fail()), null);
  const room = mkdtempSync(join(tmpdir(), 'junketscarp-'));
  try {
    writeFileSync(join(room, 'm.map'), json);
    assert.deepEqual(convert.fromMapFileComment('//# sourceMappingURL=m.map', room).toObject(), { sources: ['a'] });
    assert.throws(() => convert.fromMapFileComment('//# sourceMappingURL=n.map', room), { message: /^An error occurred while trying to read the map file at .*n\.map\n/ });
  } finally {
    rmSync(room, { recursive: true });
  }
  assert.equal(convert.generateMapFileComment('a.map'), '//# sourceMappingURL=a.map');
  assert.equal(convert.generateMapFileComment('a.map', { multiline: true }), '/*# sourceMappingURL=a.map */');
  assert.notEqual(convert.commentRegex, convert.commentRegex);
  assert.notEqual(convert.mapFileCommentRegex, convert.mapFileCommentRegex);
});

const theirConvert = peer('convert-source-map');
test('beside convert-source-map', needs('convert-source-map', theirConvert), () => {
  for (const key of Object.keys(theirConvert)) assert.equal(typeof convert[key], typeof theirConvert[key], key);
  const signs = ['//', '/*', '#', '@', ' ', '\t', 'sourceMappingURL=', 'data:', 'application/json;', 'text/json;', 'charset=utf-8;', 'charset:utf-8;', 'base64,', BASE64, ' */', '*/', '\n', 'm.map', 'x', "'", '"'];
  const starts = ['//# sourceMappingURL=', '/*# sourceMappingURL=', '//@ sourceMappingURL=', '  //# sourceMappingURL=data:application/json;base64,', '/*@ sourceMappingURL=data:application/json;charset=utf-8;base64,'];
  const next = random(7);
  let found = 0;
  for (let i = 0; i < 20000; i++) {
    const text = Array.from({ length: 1 + next(7) }, () => (next(3) === 0 ? starts[next(5)] : signs[next(signs.length)])).join('');
    const matches = (it) => text.match(it.commentRegex)?.length ?? 0;
    assert.equal(matches(convert), matches(theirConvert), JSON.stringify(text));
    found += matches(convert);
    assert.deepEqual(text.match(convert.mapFileCommentRegex), text.match(theirConvert.mapFileCommentRegex), JSON.stringify(text));
    assert.equal(convert.removeComments(text), theirConvert.removeComments(text), JSON.stringify(text));
    assert.equal(convert.removeMapFileComments(text), theirConvert.removeMapFileComments(text));
  }
  assert.ok(found > 100);
  const it = { version: 3, sources: ['größe'] };
  for (const call of ['toJSON', 'toBase64', 'toComment', 'toObject']) assert.deepEqual(convert.fromObject(it)[call](), theirConvert.fromObject(it)[call]());
});

// ---- source-map-support ----

const CODE_MAP = { version: 3, sources: ['a.ts'], sourcesContent: ['let a;\n\n  throw it();'], names: [], mappings: 'AAAA;AAEE' };
const withMap = (code) => `${code}\n//# sourceMappingURL=data:application/json;base64,${Buffer.from(JSON.stringify(CODE_MAP)).toString('base64')}\n`;

/** What a program says, with a module in the place of source-map-support. */
function said(module, files, program) {
  const room = mkdtempSync(join(tmpdir(), 'junketscarp-'));
  try {
    for (const [name, text] of Object.entries({ ...files, 'program.js': `const support = require(${JSON.stringify(module)});\n${program}` })) writeFileSync(join(room, name), text);
    const { stdout, stderr, status } = spawnSync(process.execPath, ['program.js'], { cwd: room, encoding: 'utf8' });
    return { out: `${stdout}${stderr}`.replaceAll(room, '<room>'), status };
  } finally {
    rmSync(room, { recursive: true });
  }
}
const OURS = join(COMPAT, 'source-map-support.js');
const THEIRS = peer('source-map-support') === null ? null : require.resolve('source-map-support');

const PROGRAMS = {
  'a stack trace': ["support.install(); try { require('./code.js'); } catch (error) { console.log(error.stack.split('\\n').slice(0, 2).join('\\n')); }", 'Error: it\n    at Object.<anonymous> (<room>/a.ts:3:3)\n'],
  'an error that nobody catches': ["support.install(); require('./code.js');", null],
  'a place': ["console.log(JSON.stringify(support.mapSourcePosition({ source: __dirname + '/code.js', line: 2, column: 3 })));", '{"source":"<room>/a.ts","line":3,"column":2,"name":null}\n'],
  'a place where a mapping begins': ["support.install({ retrieveSourceMap: () => ({ url: null, map: JSON.stringify({ version: 3, sources: ['m.ts'], names: [], mappings: 'AAAA,GAEA' }) }) }); for (const column of [3, 2]) console.log(support.mapSourcePosition({ source: 'm.js', line: 1, column }).line);", '3\n1\n'],
  'a reader that was taken away': ["support.install({ retrieveSourceMap: () => ({ url: null, map: JSON.stringify({ version: 3, sources: ['m.ts'], names: [], mappings: 'AAEA' }) }) }); support.resetRetrieveHandlers(); console.log(support.mapSourcePosition({ source: 'm.js', line: 1, column: 3 }).line);", '1\n'],
  'a place without a map': ["console.log(JSON.stringify(support.mapSourcePosition({ source: '/none.js', line: 2, column: 3 })));", '{"source":"/none.js","line":2,"column":3}\n'],
  'the source of an error': ["support.install(); try { require('./code.js').call(); } catch (error) { console.log(support.getErrorSource(error)); }", '<room>/a.ts:3\n  throw it();\n  ^\n'],
  'a map from elsewhere': ["support.install({ retrieveSourceMap: (it) => (it === 'made.js' ? { url: null, map: JSON.stringify({ version: 3, sources: ['m.ts'], names: [], mappings: 'AAEA' }) } : null) }); try { require('vm').runInThisContext('throw new Error(1)', { filename: 'made.js' }); } catch (error) { console.log(error.stack.split('\\n').find((it) => it.startsWith('    at'))); } console.log(support.mapSourcePosition({ source: __dirname + '/code.js', line: 2, column: 3 }).line);", '    at m.ts:3:1\n3\n'],
  'a map from elsewhere alone': ["support.install({ overrideRetrieveSourceMap: true, retrieveSourceMap: () => null }); console.log(support.mapSourcePosition({ source: __dirname + '/code.js', line: 2, column: 3 }).line); support.resetRetrieveHandlers();", '2\n'],
  'a file from elsewhere': ["const code = require('fs').readFileSync('code.js', 'utf8'); support.install({ retrieveFile: (it) => (it === '/gone.js' ? code : null) }); console.log(support.mapSourcePosition({ source: '/gone.js', line: 2, column: 3 }).source); console.log(typeof support.retrieveSourceMap('/gone.js').map);", '/a.ts\nstring\n'],
  'files from elsewhere alone': ["support.install({ overrideRetrieveFile: true, retrieveFile: () => null }); console.log(support.mapSourcePosition({ source: __dirname + '/code.js', line: 2, column: 3 }).line, support.retrieveSourceMap(__dirname + '/code.js'));", '2 null\n'],
  'another environment': ["try { support.install({ environment: 'moon' }); } catch ({ message }) { console.log(message); }", 'environment moon was unknown. Available options are {auto, browser, node}\n'],
};
const FILES = { 'code.js': withMap('// a\nthrow new Error("it");') };

for (const [name, [program, expected]] of Object.entries(PROGRAMS)) {
  test(`source-map-support: ${name}`, () => {
    const ours = said(OURS, FILES, program);
    if (expected === null) {
      assert.equal(ours.status, 1);
      assert.match(ours.out, /^\n<room>\/a\.ts:3\n {2}throw it\(\);\n {2}\^\nError: it\n {4}at Object\.<anonymous> \(<room>\/a\.ts:3:3\)\n/);
    } else {
      assert.deepEqual(ours, { out: expected, status: 0 });
    }
    if (THEIRS !== null) {
      const theirs = said(THEIRS, FILES, program);
      const shortened = ({ out, status }) => [out.split('\n').slice(0, 6), status];
      assert.deepEqual(shortened(ours), shortened(theirs));
    }
  });
}

test('source-map-support: code that is made as it is required', () => {
  const program = `
    require.extensions['.made'] = (module, file) => module._compile(require('fs').readFileSync('code.js', 'utf8'), file);
    support.install({ hookRequire: true, handleUncaughtExceptions: false });
    try { require('./it.made'); } catch (error) { console.log(error.stack.split('\\n')[1]); }`;
  for (const module of [OURS, THEIRS].filter(Boolean)) assert.deepEqual(said(module, { ...FILES, 'it.made': '' }, program), { out: '    at Object.<anonymous> (<room>/a.ts:3:3)\n', status: 0 });
});

test('source-map-support: `register` installs it', () => {
  const { out } = said(join(COMPAT, 'source-map-support-register.js'), FILES, "require('./code.js');");
  assert.match(out, /^\n<room>\/a\.ts:3\n/);
});

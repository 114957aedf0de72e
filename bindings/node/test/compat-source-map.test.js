'use strict';
// The API of the package source-map: by hand, and beside the package itself where it is installed. What differs from it on purpose is
// tested by hand alone.

const { describe, it } = require('node:test');
const assert = require('node:assert/strict');

const support = require('./support.js');
const library = require('../compat/source-map.js');
const kinds = require('../compat/source-map/source-map-consumer.js');
const urls = require('../compat/source-map/urls.js');
const { SourceMapConsumer, SourceMapGenerator, SourceNode } = library;
const { BasicSourceMapConsumer, IndexedSourceMapConsumer } = kinds;

const peer = support.peer('source-map');
const beside = support.needs('source-map', peer);
const { LEAST_UPPER_BOUND, ORIGINAL_ORDER } = SourceMapConsumer;

// Line 1: `a.ts` 1:0 at 0, with the name x; 2:4 at 4; nothing from 9 on. Line 3: `b.ts` 1:0 at 2, with the name y.
const MAP = {
  version: 3,
  file: 'out.js',
  sourceRoot: '/site/src',
  sources: ['a.ts', 'b.ts'],
  sourcesContent: ['let x;', null],
  names: ['x', 'y'],
  mappings: 'AAAAA,IACI,K;;ECDJC',
};
const NOTHING = { source: null, line: null, column: null, name: null };
const NOWHERE = { line: null, column: null, lastColumn: null };

function allMappings(consumer, order) {
  const all = [];
  consumer.eachMapping((mapping) => all.push({ ...mapping }), null, order);
  return all;
}

/** Of the peer: its unmapped mappings are said to be of a source, and objects have a class. */
function peerMappings(consumer, order) {
  return allMappings(consumer, order).map((it) => (it.originalLine === null ? { ...it, source: null } : it));
}

const sections = (...list) => ({ version: 3, sections: list.map(([line, column, map]) => ({ offset: { line, column }, map })) });

describe('paths and URLs by hand', () => {
  it('are normalized, joined and told from a root', () => {
    const normal = {
      'a/./b/../c/': 'a/c/',
      '../../a': '../../a',
      '/../a': '/a',
      'a/..': '.',
      '//h/a/../b': '//h/b',
      'x://h': 'x://h',
      '': '.',
    };
    for (const [path, expected] of Object.entries(normal)) assert.equal(urls.normalize(path), expected, path);
    const joined = [
      ['a/b/', '../c', 'a/c'],
      ['a', '/c', '/c'],
      ['', 'c', 'c'],
      ['http://h/a', 'b', 'http://h/a/b'],
      ['http://h/a', '/b', 'http://h/b'],
      ['http://h/a', '//g/b', 'http://g/b'],
      ['http://h/a', 'data:text/plain,x', 'data:text/plain,x'],
    ];
    for (const [root, path, expected] of joined) assert.equal(urls.join(root, path), expected, `${root} ${path}`);
    const told = [
      ['/a/b/c', '/a/x', '../../x'],
      ['/a/', '/a/x', 'x'],
      ['/a', '/b', '/b'],
      ['http://h/a', 'http://h/b', '../b'],
      ['a', 'b', 'b'],
      ['http://h', 'http://g', 'http://g'],
    ];
    for (const [root, path, expected] of told) assert.equal(urls.relative(root, path), expected, `${root} ${path}`);
    assert.deepEqual(urls.urlParse('http://me:pw@h.org:80/a?b'), { scheme: 'http', auth: 'me:pw', host: 'h.org', port: '80', path: '/a?b' });
    assert.equal(urls.urlGenerate(urls.urlParse('http://me:pw@h.org:80/a?b')), 'http://me:pw@h.org:80/a?b');
    assert.equal(urls.urlParse('a/b'), null);
  });
});

describe('SourceMapConsumer by hand', () => {
  const consumer = new SourceMapConsumer(MAP);

  it('has the fields of the map, and its sources behind their root', () => {
    assert.deepEqual(consumer.sources, ['/site/src/a.ts', '/site/src/b.ts']);
    assert.equal(consumer.file, 'out.js');
    assert.equal(consumer.sourceRoot, '/site/src');
    assert.deepEqual(consumer.sourcesContent, MAP.sourcesContent);
    const bare = new SourceMapConsumer({ version: 3, sources: [], mappings: '' });
    assert.deepEqual([bare.file, bare.sourceRoot, bare.sourcesContent], [null, null, null]);
  });

  it('gives the kind that fits, with `new` or without', () => {
    const index = sections([0, 0, MAP]);
    assert.ok(SourceMapConsumer(MAP) instanceof BasicSourceMapConsumer);
    assert.ok(new SourceMapConsumer(JSON.stringify(index)) instanceof IndexedSourceMapConsumer);
    assert.ok(new SourceMapConsumer(index) instanceof SourceMapConsumer);
    assert.ok(consumer instanceof SourceMapConsumer);
    assert.equal(consumer.constructor, SourceMapConsumer);
    assert.deepEqual(Object.keys(library), ['SourceMapGenerator', 'SourceMapConsumer', 'SourceNode']);
    assert.deepEqual([SourceMapConsumer.GREATEST_LOWER_BOUND, LEAST_UPPER_BOUND], [1, 2]);
    assert.deepEqual([SourceMapConsumer.GENERATED_ORDER, ORIGINAL_ORDER], [1, 2]);
  });

  it('reads a text behind the line that guards it', () => {
    assert.deepEqual(new SourceMapConsumer(`)]}' x\n${JSON.stringify(MAP)}`).sources, consumer.sources);
    assert.throws(() => new SourceMapConsumer('{'), SyntaxError);
  });

  it('finds sources from the URL of the map', () => {
    const { sources } = new SourceMapConsumer({ ...MAP, sourceRoot: 'src', sources: ['../a.ts', '/b.ts'] }, 'http://x.org/js/out.map');
    assert.deepEqual(sources, ['http://x.org/js/a.ts', 'http://x.org/js/src/b.ts']);
    assert.throws(() => new SourceMapConsumer(MAP, 'out.map'), { message: 'sourceMapURL could not be parsed' });
  });

  it('finds original positions', () => {
    const at = (line, column, bias) => consumer.originalPositionFor({ line, column, ...(bias && { bias }) });
    assert.deepEqual(at(1, 0), { source: '/site/src/a.ts', line: 1, column: 0, name: 'x' });
    assert.deepEqual(at(1, 8), { source: '/site/src/a.ts', line: 2, column: 4, name: null });
    assert.deepEqual(at(1, 3.5), at(1, 3));
    assert.deepEqual(at(1, 3.5, LEAST_UPPER_BOUND), at(1, 4));
    assert.deepEqual(at(1, 9), NOTHING);
    assert.deepEqual(at(1, Infinity), NOTHING);
    assert.deepEqual(at(3, Infinity), { source: '/site/src/b.ts', line: 1, column: 0, name: 'y' });
    assert.deepEqual(at(3, 1), NOTHING);
    assert.deepEqual(at(3, 1, LEAST_UPPER_BOUND), at(3, 2));
    assert.deepEqual(at(3, 3, LEAST_UPPER_BOUND), NOTHING);
    assert.deepEqual(at(2, 0, LEAST_UPPER_BOUND), NOTHING);
    assert.deepEqual(at(1e17, 1e17), NOTHING);
  });

  it('of several mappings at one position takes the first by source, wherever it is asked', () => {
    const twice = new SourceMapConsumer({ ...MAP, sourceRoot: '', mappings: 'A,ACAA,ADAA,IACA' });
    assert.equal(twice.originalPositionFor({ line: 1, column: 0 }).source, 'a.ts');
    assert.equal(twice.originalPositionFor({ line: 1, column: 3 }).source, 'a.ts');
    assert.deepEqual(
      allMappings(twice).map(({ source }) => source),
      ['a.ts', 'b.ts', null, 'a.ts'],
    );
  });

  it('finds generated positions, from the lines around, too', () => {
    const at = (source, line, column, bias) => consumer.generatedPositionFor({ source, line, column, bias });
    assert.deepEqual(at('/site/src/a.ts', 2, 4), { line: 1, column: 4, lastColumn: null });
    assert.deepEqual(at('a.ts', 2, 9), { line: 1, column: 4, lastColumn: null });
    assert.deepEqual(at('a.ts', 2, 3), { line: 1, column: 0, lastColumn: null });
    assert.deepEqual(at('a.ts', 1, 1, LEAST_UPPER_BOUND), { line: 1, column: 4, lastColumn: null });
    assert.deepEqual(at('a.ts', 2, 5, LEAST_UPPER_BOUND), NOWHERE);
    assert.deepEqual(at('b.ts', 1, 0), { line: 3, column: 2, lastColumn: null });
    assert.deepEqual(at('c.ts', 0, -1), NOWHERE);
  });

  it('finds all generated positions of a line or a column, of this source alone', () => {
    const many = new SourceMapConsumer({ version: 3, sources: ['a', 'b'], names: [], mappings: 'AACA,CAAA,CAAE;AAAF,ACCA' });
    const at = (line, column) => many.allGeneratedPositionsFor({ source: 'a', line, ...(column !== undefined && { column }) });
    assert.deepEqual(
      at(1).map(({ line, column }) => [line, column]),
      [[1, 0], [2, 0], [1, 1], [1, 2]],
    );
    assert.equal(at(2, 0).length, 3);
    assert.deepEqual(at(2, 1), [{ line: 1, column: 2, lastColumn: null }]);
    assert.deepEqual(at(1, 0), []);
    assert.deepEqual(at(3), []);
  });

  it('finds the positions of a source that is listed twice', () => {
    const twice = new SourceMapConsumer({ version: 3, sources: ['a', 'b', './a'], names: [], mappings: 'AAAA,CCAA,CCAA,CACA' });
    assert.deepEqual(twice.sources, ['a', 'b', 'a']);
    const alike = new SourceMapConsumer({ version: 3, sourceRoot: 'r', sources: ['a', '/a'], names: [], mappings: 'ACAA' });
    assert.equal(alike.generatedPositionFor({ source: '/a', line: 1, column: 0 }).column, 0);
    const columns = twice.allGeneratedPositionsFor({ source: 'a', line: 1 }).map(({ column }) => column);
    assert.deepEqual(columns, [0, 2]);
    assert.equal(twice.generatedPositionFor({ source: 'a', line: 2, column: 0 }).column, 3);
    assert.equal(twice.originalPositionFor({ line: 1, column: 3 }).source, 'a');
  });

  it('computes the last columns', () => {
    const spans = new SourceMapConsumer(MAP);
    spans.computeColumnSpans();
    const last = (source, line, column) => spans.generatedPositionFor({ source, line, column }).lastColumn;
    assert.deepEqual([last('a.ts', 1, 0), last('a.ts', 2, 4), last('b.ts', 1, 0)], [3, 8, Infinity]);
    const twice = new SourceMapConsumer({ ...MAP, mappings: 'AAAA,AACA,EACA' });
    twice.computeColumnSpans();
    assert.equal(twice.generatedPositionFor({ source: 'a.ts', line: 1, column: 0 }).lastColumn, 1);
  });

  it('tells mappings in both orders, and `this`', () => {
    const context = {};
    consumer.eachMapping(function () {
      assert.equal(this, context);
    }, context);
    assert.deepEqual(allMappings(consumer)[2], {
      source: null,
      generatedLine: 1,
      generatedColumn: 9,
      originalLine: null,
      originalColumn: null,
      name: null,
    });
    assert.deepEqual(
      allMappings(consumer, ORIGINAL_ORDER).map(({ source, originalLine }) => `${source}:${originalLine}`),
      ['/site/src/a.ts:1', '/site/src/a.ts:2', '/site/src/b.ts:1'],
    );
    assert.throws(() => consumer.eachMapping(() => {}, null, 3), { message: 'Unknown order of iteration.' });
  });

  it('has contents by the names and by the URLs of sources', () => {
    assert.equal(consumer.sourceContentFor('a.ts'), 'let x;');
    assert.equal(consumer.sourceContentFor('/site/src/a.ts'), 'let x;');
    assert.equal(consumer.sourceContentFor('b.ts'), null);
    assert.equal(consumer.sourceContentFor('c.ts', true), null);
    assert.throws(() => consumer.sourceContentFor('c.ts'), { message: '"c.ts" is not in the SourceMap.' });
    assert.equal(consumer.hasContentsOfAllSources(), false);
    assert.equal(new SourceMapConsumer({ ...MAP, sourcesContent: ['', ''] }).hasContentsOfAllSources(), true);
    const file = { version: 3, sources: ['/a', 'b'], sourcesContent: ['A', 'B'], sourceRoot: 'file://', mappings: '' };
    assert.equal(new SourceMapConsumer(file).sourceContentFor('file:///a'), 'A');
    assert.equal(new SourceMapConsumer({ ...file, sourceRoot: 'http://x.org' }).sourceContentFor('a'), 'A');
  });

  it('refuses what is no map, and positions before the first', () => {
    const made = (map) => () => new SourceMapConsumer(map);
    assert.throws(made({ ...MAP, version: 4 }), { message: 'Unsupported version: 4' });
    assert.throws(made({ version: 3, mappings: '' }), { message: '"sources" is a required argument.' });
    assert.throws(made({ version: 3, sources: [] }), { message: '"mappings" is a required argument.' });
    assert.throws(() => consumer.originalPositionFor({ line: 1 }), { message: '"column" is a required argument.' });
    assert.throws(() => consumer.originalPositionFor({ line: 0, column: 0 }), {
      name: 'TypeError',
      message: 'Line must be greater than or equal to 1, got 0',
    });
    assert.throws(() => consumer.generatedPositionFor({ source: 'a.ts', line: 1, column: -1 }), {
      name: 'TypeError',
      message: 'Column must be greater than or equal to 0, got -1',
    });
  });

  it('tells faults of the mappings when they are needed', () => {
    const message = (mappings) => {
      const faulty = new SourceMapConsumer({ version: 3, sources: ['a'], names: [], mappings });
      try {
        faulty.eachMapping(() => {});
      } catch (error) {
        return error.message;
      }
    };
    assert.equal(message('AA'), 'Found a source, but no line and column');
    assert.equal(message('AAA'), 'Found a source and line, but no column');
    assert.equal(message('A,g'), 'Expected more digits in base 64 VLQ value.');
    assert.equal(message('A,!'), 'Invalid base64 digit: !');
    assert.equal(message('ACAA'), 'No element indexed by 1');
    assert.equal(message('A,,A;,'), undefined);
  });
});

describe('IndexedSourceMapConsumer by hand', () => {
  const first = { version: 3, sources: ['a', 'b'], names: ['n'], mappings: 'ACAAA,C;AAAA' };
  const second = { version: 3, sources: ['b'], sourceRoot: 'r', names: ['m', 'n'], sourcesContent: [''], mappings: 'AAAAA,CAACC;A' };
  const consumer = new SourceMapConsumer(sections([0, 0, first], [1, 10, second]));

  it('asks the section that a position is in, from its first column on', () => {
    const at = (line, column) => consumer.originalPositionFor({ line, column });
    assert.deepEqual(at(1, 0), { source: 'b', line: 1, column: 0, name: 'n' });
    assert.equal(at(2, 9).source, 'b');
    assert.deepEqual(at(2, 10), { source: 'r/b', line: 1, column: 0, name: 'm' });
    assert.deepEqual(at(2, 99), { source: 'r/b', line: 1, column: 1, name: 'n' });
    assert.deepEqual(at(3, 0), NOTHING);
  });

  it('joins the mappings of all sections', () => {
    const all = allMappings(consumer).map((it) => [it.generatedLine, it.generatedColumn, it.source, it.name]);
    const expected = [[1, 0, 'b', 'n'], [1, 1, null, null], [2, 0, 'b', null], [2, 10, 'r/b', 'm'], [2, 11, 'r/b', 'n'], [3, 0, null, null]];
    assert.deepEqual(all, expected);
    assert.deepEqual(consumer.sources, ['a', 'b', 'r/b']);
    assert.deepEqual(consumer.generatedPositionFor({ source: 'r/b', line: 1, column: 1 }), { line: 2, column: 11 });
    assert.deepEqual(consumer.generatedPositionFor({ source: 'a', line: 1, column: 1 }), { line: null, column: null });
    assert.equal(consumer.allGeneratedPositionsFor({ source: 'b', line: 1 }).length, 2);
    assert.deepEqual(SourceMapGenerator.fromSourceMap(consumer).toJSON().mappings, 'AAAAA,C;AAAA,UCAAC,CAACD;A');
  });

  it('has the contents of all sections, also an empty one', () => {
    assert.equal(consumer.sourceContentFor('r/b'), '');
    assert.equal(consumer.sourceContentFor('a'), null);
    assert.throws(() => consumer.sourceContentFor('c'), { message: '"c" is not in the SourceMap.' });
    assert.equal(consumer.hasContentsOfAllSources(), false);
  });

  it('refuses sections out of order, and those that are elsewhere', () => {
    const message = 'Section offsets must be ordered and non-overlapping.';
    assert.throws(() => new SourceMapConsumer(sections([1, 0, first], [0, 9, second])), { message });
    assert.throws(() => new SourceMapConsumer(sections([1, 2, first], [1, 1, second])), { message });
    assert.throws(() => new SourceMapConsumer({ version: 3, sections: [{ offset: { line: 0, column: 0 }, url: 'x' }] }), {
      message: 'Support for url field in sections not implemented.',
    });
  });
});

describe('SourceMapGenerator by hand', () => {
  const generated = { line: 1, column: 0 };
  const original = { line: 2, column: 1 };

  it('writes a map, its properties in order', () => {
    const generator = new SourceMapGenerator({ file: 'o.js', sourceRoot: '/r' });
    generator.addMapping({ generated: { line: 2, column: 4 }, original, source: 'a', name: 'n' });
    generator.addMapping({ generated });
    generator.addMapping({ generated: { line: 2, column: 4 }, original, source: 'a', name: 'n' });
    generator.setSourceContent('/r/a', 'A');
    assert.equal(
      generator.toString(),
      '{"version":3,"sources":["a"],"names":["n"],"mappings":"A;IACCA","file":"o.js","sourceRoot":"/r","sourcesContent":["A"]}',
    );
    generator.setSourceContent('a', null);
    assert.equal('sourcesContent' in generator.toJSON(), false);
  });

  it('refuses mappings that are none, unless it is told not to look', () => {
    const refused = (mapping, message) => assert.throws(() => new SourceMapGenerator().addMapping(mapping), { message });
    refused({}, '"generated" is a required argument.');
    refused({ generated: { line: 0, column: 0 } }, /^Invalid mapping: \{"generated":\{"line":0,"column":0\},"source":null/);
    refused({ generated, source: 'a' }, /^Invalid mapping: /);
    refused({ generated, original }, /^Invalid mapping: /);
    refused({ generated, name: 'n' }, /^Invalid mapping: /);
    refused({ generated, original: { line: null, column: null }, source: 'a' }, /^original.line and original.column are not numbers/);
    const lax = new SourceMapGenerator({ skipValidation: true });
    lax.addMapping({ generated, original });
    assert.equal(lax.toJSON().mappings, 'A');
    assert.throws(() => lax.addMapping({}), { message: '"generated" is a required argument.' });
    assert.throws(() => lax.addMapping({ generated: {}, original, source: 'a' }), { message: /^Invalid mapping: / });
    assert.deepEqual(lax.toJSON().sources, []);
  });

  it('keeps names that are empty, and takes numbers for texts', () => {
    const generator = new SourceMapGenerator();
    generator.addMapping({ generated, original, source: 8, name: '' });
    generator.addMapping({ generated: { line: 1, column: 3 }, original, source: 8, name: 7 });
    assert.deepEqual(generator.toJSON(), { version: 3, sources: ['8'], names: ['', '7'], mappings: 'AACCA,GAAAC' });
  });

  it('sorts large numbers', () => {
    const generator = new SourceMapGenerator();
    const columns = [4_200_000_000, 70_000, 3_000, 2_999, 7];
    for (const column of columns) generator.addMapping({ generated: { line: 1, column }, original: { line: column, column: 0 }, source: 'a' });
    generator.addMapping({ generated: { line: 1, column: 0 } });
    const consumer = new SourceMapConsumer(generator.toJSON());
    assert.deepEqual(
      allMappings(consumer).map(({ generatedColumn }) => generatedColumn),
      [0, ...columns.toReversed()],
    );
    assert.deepEqual(consumer.generatedPositionFor({ source: 'a', line: 5_000, column: 0 }), { line: 1, column: 3_000, lastColumn: null });
  });

  it('is led through the map of a source', () => {
    const inner = { version: 3, file: 'b.js', sources: ['c.ts'], sourcesContent: ['C'], names: ['f'], mappings: 'AAQEA' };
    const generator = new SourceMapGenerator({ sourceRoot: '/r' });
    generator.addMapping({ generated, original: { line: 1, column: 3 }, source: 'b.js', name: 'x' });
    generator.addMapping({ generated: { line: 1, column: 9 }, original, source: 'b.js', name: 'y' });
    generator.applySourceMap(new SourceMapConsumer(inner), undefined, '/r/lib');
    assert.deepEqual(generator.toJSON(), {
      version: 3,
      sources: ['lib/c.ts', 'b.js'],
      names: ['f', 'y'],
      mappings: 'AAQEA,SCPDC',
      sourceRoot: '/r',
      sourcesContent: ['C', null],
    });
    const nameless = new SourceMapConsumer({ ...inner, file: undefined });
    assert.throws(() => generator.applySourceMap(nameless), { message: /^SourceMapGenerator.prototype.applySourceMap requires/ });
  });

  it('becomes a consumer, and a consumer a generator', () => {
    const generator = SourceMapGenerator.fromSourceMap(new SourceMapConsumer(MAP));
    assert.deepEqual(generator.toJSON(), { ...MAP });
    const consumer = SourceMapConsumer.fromSourceMap(generator);
    generator.addMapping({ generated: { line: 9, column: 0 } });
    assert.ok(consumer instanceof BasicSourceMapConsumer);
    generator.applySourceMap(new SourceMapConsumer({ version: 3, sources: ['c'], names: [], mappings: 'AAgBA' }), '/site/src/a.ts');
    assert.deepEqual(allMappings(consumer), allMappings(new SourceMapConsumer(MAP)));
    assert.equal(consumer.sourceContentFor('/site/src/a.ts'), 'let x;');
  });
});

describe('SourceNode by hand', () => {
  const tree = () => new SourceNode(1, 2, 'a', ['x', new SourceNode(3, 4, 'b', 'y', 'n'), ['z', '']]);

  it('is a tree of code', () => {
    const node = tree();
    assert.equal(node.toString(), 'xyz');
    assert.equal(node.add(['1', '2']).prepend(['-', '+']), node);
    assert.equal(String(node), '-+xyz12');
    assert.equal(tree().join(', ').toString(), 'x, y, z');
    assert.equal(tree().replaceRight('z', 'w').toString(), 'xyw');
    assert.equal(new SourceNode(null, null, null, ['a', new SourceNode(1, 0, 'b')]).replaceRight(/$/, ';').toString(), 'a;');
    assert.deepEqual(Object.keys(node), ['children', 'sourceContents', 'line', 'column', 'source', 'name', '$$$isSourceNode$$$']);
    const message = 'Expected a SourceNode, string, or an array of SourceNodes and strings. Got 5';
    assert.throws(() => node.add(5), { name: 'TypeError', message });
    assert.throws(() => node.prepend({}), TypeError);
  });

  it('is walked', () => {
    const seen = [];
    tree().walk((chunk, original) => seen.push([chunk, original]));
    const a = { source: 'a', line: 1, column: 2, name: null };
    assert.deepEqual(seen, [['x', a], ['y', { source: 'b', line: 3, column: 4, name: 'n' }], ['z', a]]);
    const node = tree();
    node.children[1].setSourceContent('b', 'B');
    node.setSourceContent('__proto__', 'A');
    const contents = [];
    node.walkSourceContents((...content) => contents.push(content));
    assert.deepEqual(contents, [['b', 'B'], ['__proto__', 'A']]);
  });

  it('knows the nodes of other copies of the package, and constructors that inherit', () => {
    function Mine() {
      SourceNode.call(this, 1, 0, 'mine', 'm');
    }
    Mine.prototype = Object.create(SourceNode.prototype);
    const foreign = { $$$isSourceNode$$$: true, walk: (visit) => visit('f', { source: null, line: null, column: null, name: null }) };
    assert.equal(new SourceNode(null, null, null, [new Mine(), foreign]).toString(), 'mf');
  });

  it('writes its code with a map', () => {
    const node = new SourceNode(null, null, null, ['(', tree(), '\n', new SourceNode(5, 0, 'c', 'p\nq\n'), 'r']);
    node.setSourceContent('c', 'C');
    const { code, map } = node.toStringWithSourceMap({ file: 'o' });
    assert.equal(code, '(xyz\np\nq\nr');
    // Line 1: a 1:2 at 1, b 3:4 at 2, a again at 3, nothing at 4; lines 2 and 3: c 5:0 at 0; line 4 begins without a mapping.
    assert.deepEqual(map.toJSON(), {
      version: 3,
      sources: ['a', 'b', 'c'],
      names: ['n'],
      mappings: 'CAAE,CCEEA,CDFF,C;AEIF;AAAA',
      file: 'o',
      sourcesContent: [null, null, 'C'],
    });
  });

  it('is cut from a code by its map, the lines that have none apart', () => {
    const map = { version: 3, sources: ['a'], sourcesContent: ['A'], names: ['n'], mappings: 'CAAAA,C;;AACA,E;;;;AACA' };
    const node = SourceNode.fromStringWithSourceMap('ab\r\ncd\r\nefgh', new SourceMapConsumer(map), 'lib');
    const told = node.children.map((it) => (typeof it === 'string' ? it : [it.children.join(''), it.source, it.line, it.name]));
    assert.deepEqual(told, ['a', ['b', 'lib/a', 1, 'n'], '\r\n', 'cd\r\n', ['ef', 'lib/a', 2, null], 'gh']);
    assert.equal(node.toString(), 'ab\r\ncd\r\nefgh');
    assert.deepEqual({ ...node.sourceContents }, { 'lib/a': 'A' });
  });
});

// ---- beside the peer ----

const cases = [
  ...support.realMaps().filter(({ refused }) => refused === null).map(({ path, bytes }) => ({ name: path, json: bytes.toString() })),
  ...Array.from({ length: 100 }, (_, seed) => ({ name: `random ${seed}`, json: JSON.stringify(support.randomMap(seed).json) })),
];
const isIndexed = ({ json }) => JSON.parse(json).sections !== undefined;
const flatCases = cases.filter((it) => !isIndexed(it));

const some = (list, count) => list.filter((_, i) => i % Math.ceil(list.length / count) === 0);

/** Generated positions at mappings, beside them, and past them. */
function questions(mappings) {
  return some(mappings, 60).flatMap(({ generatedLine: line, generatedColumn: column }) =>
    [column - 1, column, column + 1, column + 7, Infinity].map((at) => ({ line, column: Math.max(0, at) })),
  );
}

/** What the documentation says of all generated positions, from the mappings of the peer in its own order. */
function positionsOfLine(mappings, source, line) {
  const own = mappings.filter((it) => it.source === source && it.originalLine >= line);
  return own.filter((it) => it.originalLine === own[0].originalLine);
}

describe('beside source-map', beside, () => {
  it('consumers tell the same mappings, sources and contents', () => {
    for (const { name, json } of flatCases) {
      const [ours, theirs] = [new SourceMapConsumer(json), new peer.SourceMapConsumer(json)];
      assert.deepEqual(allMappings(ours), peerMappings(theirs), name);
      assert.deepEqual(allMappings(ours, ORIGINAL_ORDER), peerMappings(theirs, ORIGINAL_ORDER), name);
      assert.deepEqual(ours.sources, theirs.sources, name);
      assert.equal(ours.hasContentsOfAllSources(), theirs.hasContentsOfAllSources(), name);
      for (const source of theirs.sources) assert.equal(ours.sourceContentFor(source), theirs.sourceContentFor(source), name);
    }
  });

  it('consumers answer the same for generated positions', () => {
    for (const { name, json } of flatCases) {
      const [ours, theirs] = [new SourceMapConsumer(json), new peer.SourceMapConsumer(json)];
      for (const place of questions(allMappings(theirs))) {
        for (const bias of [1, LEAST_UPPER_BOUND]) {
          const question = { ...place, bias };
          assert.deepEqual(ours.originalPositionFor(question), theirs.originalPositionFor(question), `${name} ${JSON.stringify(question)}`);
        }
      }
    }
  });

  it('consumers answer the same for original positions', () => {
    for (const { name, json } of flatCases) {
      const [ours, theirs] = [new SourceMapConsumer(json), new peer.SourceMapConsumer(json)];
      ours.computeColumnSpans();
      theirs.computeColumnSpans();
      const mapped = allMappings(theirs, ORIGINAL_ORDER);
      for (const { source, originalLine, originalColumn } of some(mapped, 60)) {
        for (const [line, column] of [[originalLine, originalColumn], [originalLine, originalColumn + 1], [originalLine + 1, 0]]) {
          for (const bias of [1, LEAST_UPPER_BOUND]) {
            const question = { source, line, column, bias };
            const [mine, yours] = [ours, theirs].map((it) => it.generatedPositionFor(question));
            // Of mappings at one position, which it sorts by chance, the peer says that all but the last end before they begin.
            if (yours.lastColumn < yours.column) yours.lastColumn = mine.lastColumn;
            assert.deepEqual(mine, yours, `${name} ${JSON.stringify(question)}`);
          }
        }
        const all = ours.allGeneratedPositionsFor({ source, line: originalLine });
        const expected = positionsOfLine(mapped, source, originalLine);
        assert.deepEqual(all.map((it) => [it.line, it.column]), expected.map((it) => [it.generatedLine, it.generatedColumn]), name);
        const exact = { source, line: originalLine, column: originalColumn };
        const [mine, yours] = [ours, theirs].map((it) => it.allGeneratedPositionsFor(exact).map((place) => [place.line, place.column]));
        assert.deepEqual(mine, yours, name);
      }
    }
  });

  it('an indexed map answers as the map of its sections joined', () => {
    for (let seed = 0; seed < 30; seed++) {
      const parts = [0, 1, 2].map((i) => support.randomMap(3 * seed + i));
      const offsets = [[0, 0], [50, 3], [120, 0]];
      const index = sections(...parts.map(({ json }, i) => [...offsets[i], { ...json, sources: json.sources.map((it) => `${i}/${it}`) }]));
      const flat = joined(parts, offsets);
      const [ours, theirs] = [new SourceMapConsumer(index), new peer.SourceMapConsumer(flat)];
      assert.deepEqual(allMappings(ours), peerMappings(theirs), `seed ${seed}`);
      for (const question of questions(allMappings(theirs))) {
        assert.deepEqual(ours.originalPositionFor(question), theirs.originalPositionFor(question), JSON.stringify([seed, question]));
      }
      const { sources } = theirs;
      for (const source of sources) {
        const { lastColumn, ...expected } = theirs.generatedPositionFor({ source, line: 9, column: 4 });
        assert.deepEqual(ours.generatedPositionFor({ source, line: 9, column: 4 }), expected, `seed ${seed}`);
      }
    }
  });

  it('generators write the same text, in whatever order mappings come', () => {
    for (const { name, json } of flatCases) {
      const mappings = allMappings(new SourceMapConsumer(json));
      const next = support.random(mappings.length + 1);
      const orders = [mappings, mappings.toReversed(), mappings.toSorted(() => next(3) - 1), [...mappings, ...mappings]];
      for (const order of orders) {
        const [ours, theirs] = [SourceMapGenerator, peer.SourceMapGenerator].map((Generator) => generatorOf(Generator, order));
        assert.equal(ours.toString(), theirs.toString(), name);
        assert.deepEqual(allMappings(SourceMapConsumer.fromSourceMap(ours)), peerMappings(peer.SourceMapConsumer.fromSourceMap(theirs)), name);
      }
    }
  });

  it('generators apply a map the same way', () => {
    for (let seed = 0; seed < 100; seed++) {
      const [outer, inner] = [support.randomMap(seed), support.randomMap(seed + 1000)];
      const json = { ...inner.json, file: 's0.js', sourceRoot: ['', '/r', 'lib'][seed % 3] };
      const [ours, theirs] = [library, peer].map(({ SourceMapConsumer: Consumer, SourceMapGenerator: Generator }) => {
        const generator = generatorOf(Generator, allMappings(new SourceMapConsumer(outer.json)), { sourceRoot: [undefined, '/r'][seed % 2] });
        generator.applySourceMap(new Consumer(json), undefined, [undefined, '../x', '/r/y', ''][seed % 4]);
        return generator.toString();
      });
      assert.equal(ours, theirs, `seed ${seed}`);
    }
  });

  it('nodes write the same code and map', () => {
    for (let seed = 0; seed < 200; seed++) {
      const [ours, theirs] = [SourceNode, peer.SourceNode].map((Node) => randomNode(Node, support.random(seed + 1), 4));
      const [mine, yours] = [ours.toStringWithSourceMap({ file: 'f' }), theirs.toStringWithSourceMap({ file: 'f' })];
      assert.equal(mine.code, yours.code, `seed ${seed}`);
      assert.equal(mine.map.toString(), yours.map.toString(), `seed ${seed}`);
      assert.equal(JSON.stringify(ours), JSON.stringify(theirs), `seed ${seed}`);
    }
  });

  it('nodes are cut from a code the same way, but for the code without a source', () => {
    const line = 'const größe = 1; // 😀 and more of it, so that most columns are in the line';
    for (const { name, json } of flatCases) {
      const lines = allMappings(new SourceMapConsumer(json)).at(-1)?.generatedLine ?? 1;
      const code = Array.from({ length: lines }, (_, i) => line.slice(i % 9)).join('\n');
      const written = [library, peer].map(({ SourceMapConsumer: Consumer, SourceNode: Node }) => {
        const node = Node.fromStringWithSourceMap(code, new Consumer(withoutUnmapped(json)), 'rel');
        assert.equal(node.toString(), code, name);
        return [JSON.stringify(node), node.toStringWithSourceMap().map.toString()];
      });
      assert.deepEqual(written[0], written[1], name);
    }
  });
});

/** The value of the map of parts below one another, whose tokens are moved one by one. */
function joined(parts, offsets) {
  const flat = { version: 3, sources: [], names: [], mappings: '' };
  const tokens = [];
  parts.forEach((part, i) => {
    const [line, column] = offsets[i];
    const [sources, names] = [flat.sources.length, flat.names.length];
    for (const [l, c, ol, oc, s, n] of part.tokens) {
      const ids = [s === 0xffffffff ? s : s + sources, n === 0xffffffff ? n : n + names];
      tokens.push([l + line, c + (l === 0 ? column : 0), ol, oc, ...ids]);
    }
    flat.sources.push(...part.json.sources.map((it) => `${i}/${it}`));
    flat.names.push(...part.json.names);
  });
  return { ...flat, mappings: support.mappingsOf(tokens) };
}

function generatorOf(Generator, mappings, options) {
  const generator = new Generator(options);
  for (const it of mappings) {
    const generated = { line: it.generatedLine, column: it.generatedColumn };
    if (it.source === null) generator.addMapping({ generated });
    else generator.addMapping({ generated, original: { line: it.originalLine, column: it.originalColumn }, source: it.source, name: it.name });
  }
  return generator;
}

function randomNode(Node, next, depth) {
  const place = next(4) === 0 ? [null, null, null] : [1 + next(3), next(3), `s${next(3)}`];
  const node = new Node(...place, null, next(3) === 0 ? `n${next(3)}` : null);
  for (let count = next(5); count > 0; count--) {
    const isNode = depth > 0 && next(2) === 0;
    node.add(isNode ? randomNode(Node, next, depth - 1) : ['a', 'bc', '\n', 'd\ne', '\r\n', 'f\n', '\n\ng', ''][next(8)]);
  }
  if (next(4) === 0) node.setSourceContent(`s${next(3)}`, 'content');
  return node;
}

/** The map without the mappings that have no source, which the peer takes for some of a source. */
function withoutUnmapped(json) {
  return generatorOf(SourceMapGenerator, allMappings(new SourceMapConsumer(json)).filter(({ source }) => source !== null)).toJSON();
}

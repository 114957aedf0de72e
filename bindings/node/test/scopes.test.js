'use strict';
// The scopes of maps: what texts mean, what is asked of them, each fault, and handles that were freed.

const test = require('node:test');
const assert = require('node:assert/strict');
const { execFileSync } = require('node:child_process');
const { inspect } = require('node:util');
const vm = require('node:vm');

const { NO_ID, Bias, CompiledMap, Scopes, SourceMap } = require('..');
const native = require('../lib/native.js');
const { SCOPES_FAULTS } = require('../lib/constants.js');
const { TEXT, fails } = require('./support.js');

const isSanitized = process.env.JUNKETSCARP_SANITIZED !== undefined;

const at = (line, column) => ({ line, column });

// A function `outer`, in whose code `inner` was inlined.
const NAMES = ['n0', 'global', 'outer', 'function', 'a', 'inner', 'x'];
const INLINED = 'BCAAC,BHBAEE,DI,CDB,BHBAGA,CCB,CBA,ECAA,EGKC,GH,ECKC,IADE,FK,FK,FBA';
const VALUE = { version: 3, sources: ['s.ts'], names: NAMES, mappings: 'AAAA,UAEI,UAIA', scopes: INLINED };

const scope = (index, sourceId, start, end, nameId, name, kindId, kind, isStackFrame, parent) => ({
  index,
  sourceId,
  start: at(...start),
  end: at(...end),
  nameId,
  name,
  kindId,
  kind,
  isStackFrame,
  parent,
});
const range = (index, start, end, definition, isStackFrame, isHidden, call, parent) => ({
  index,
  start: at(...start),
  end: at(...end),
  definition,
  isStackFrame,
  isHidden,
  call,
  parent,
});
const frame = (nameId, name, ofScope, call) => ({ nameId, name, scope: ofScope, call });

const CALL = { sourceId: 0, line: 3, column: 4 };
const SCOPES = [
  scope(0, 0, [0, 0], [8, 0], null, null, 1, 'global', false, null),
  scope(1, 0, [1, 0], [4, 1], 2, 'outer', 3, 'function', true, 0),
  scope(2, 0, [5, 0], [7, 1], 5, 'inner', 3, 'function', true, 0),
];
const RANGES = [
  range(0, [0, 0], [1, 0], 0, false, false, null, null),
  range(1, [0, 10], [0, 40], 1, true, false, null, 0),
  range(2, [0, 20], [0, 30], 2, false, false, CALL, 1),
];
const INNER = [frame(5, 'inner', 2, null), frame(2, 'outer', 1, CALL)];
const OUTER = [frame(2, 'outer', 1, null)];

test('a text of which all is known', () => {
  const scopes = Scopes.decode(INLINED, NAMES);
  assert.deepEqual(scopes.counts, { sources: 1, scopes: 3, ranges: 3 });
  assert.deepEqual(scopes.scopes, SCOPES);
  assert.deepEqual(scopes.ranges, RANGES);
  for (const [column, frames] of [[0, [frame(null, null, null, null)]], [9, [frame(null, null, null, null)]], [10, OUTER], [15, OUTER], [19, OUTER], [20, INNER], [25, INNER], [29, INNER], [30, OUTER], [39, OUTER], [40, [frame(null, null, null, null)]]]) {
    assert.deepEqual(scopes.framesAt(0, column), { frames, isHidden: false }, `${column}`);
    assert.deepEqual(scopes.framesAt({ line: 0, column }), { frames, isHidden: false });
  }
  assert.deepEqual(scopes.framesAt(1, 0), { frames: [], isHidden: false });
  assert.match(inspect(scopes), /^Scopes \{ sources: 1, scopes: 3, ranges: 3 \}$/);
  assert.equal(inspect({ scopes }, { depth: 0 }), '{ scopes: [Scopes] }');
});

test('scopes, functions and ranges at positions', () => {
  const scopes = Scopes.decode(INLINED, NAMES);
  const indexAt = (name, ...place) => scopes[name](...place)?.index ?? null;
  for (const [line, column, one, func] of [[0, 0, 0, null], [0, 99, 0, null], [1, 0, 1, 1], [4, 0, 1, 1], [4, 1, 0, null], [5, 0, 2, 2], [7, 1, 0, null], [7, 99, 0, null], [8, 0, null, null], [NO_ID, NO_ID, null, null]]) {
    assert.deepEqual([indexAt('scopeAt', 0, line, column), indexAt('functionAt', 0, line, column)], [one, func], `${line}:${column}`);
    assert.deepEqual(scopes.scopeAt({ source: 0, line, column }), SCOPES[one] ?? null);
    assert.deepEqual(scopes.functionAt({ source: 0, line, column }), SCOPES[func] ?? null);
  }
  for (const source of [1, NO_ID]) assert.deepEqual([scopes.scopeAt(source, 1, 0), scopes.functionAt(source, 1, 0)], [null, null]);
  for (const [line, column, index] of [[0, 0, 0], [0, 10, 1], [0, 20, 2], [0, 30, 1], [0, 40, 0], [0, NO_ID, 0], [1, 0, null]]) {
    assert.deepEqual(scopes.rangeAt(line, column), RANGES[index] ?? null, `${line}:${column}`);
    assert.deepEqual(scopes.rangeAt({ line, column }), RANGES[index] ?? null);
  }
  for (const [index, it] of [...SCOPES, null].entries()) assert.deepEqual(scopes.scope(index), it);
  for (const [index, it] of [...RANGES, null].entries()) assert.deepEqual(scopes.range(index), it);
  assert.deepEqual([scopes.scope(NO_ID), scopes.range(NO_ID)], [null, null]);
});

test('a function in a block is the function of the block, and a scope knows its own source', () => {
  // A frame in source 1, and in it a block.
  const scopes = Scopes.decode('A,BEAAA,BABC,CBA,CBA,A', 0);
  assert.deepEqual(scopes.counts, { sources: 3, scopes: 2, ranges: 0 });
  assert.deepEqual([scopes.scopeAt(1, 1, 5).index, scopes.functionAt(1, 1, 5).index], [1, 0]);
  assert.deepEqual([scopes.scopeAt(1, 0, 0).index, scopes.functionAt(1, 0, 0).index], [0, 0]);
  assert.deepEqual([scopes.scopeAt(0, 1, 5), scopes.scopeAt(2, 1, 5)], [null, null]);
});

test('a source without scopes', () => {
  const scopes = Scopes.decode('A,BCCDA,CAG', ['block']);
  assert.deepEqual(scopes.counts, { sources: 2, scopes: 1, ranges: 0 });
  assert.deepEqual(scopes.scopes, [scope(0, 1, [2, 3], [2, 9], null, null, 0, 'block', false, null)]);
  assert.deepEqual(scopes.ranges, []);
});

test('a hidden frame', () => {
  const scopes = Scopes.decode('ENDC,FCH', []);
  assert.deepEqual(scopes.counts, { sources: 0, scopes: 0, ranges: 1 });
  assert.deepEqual(scopes.ranges, [range(0, [3, 2], [5, 7], null, true, true, null, null)]);
  for (const place of [[3, 2], [4, 0], [5, 6]]) assert.deepEqual(scopes.framesAt(...place), { frames: [frame(null, null, null, null)], isHidden: true });
  for (const place of [[3, 1], [5, 7]]) assert.deepEqual(scopes.framesAt(...place), { frames: [], isHidden: false });
});

// ---- variables ----

const none = (nameId, name) => ({ nameId, name, valueId: null, value: null });
const WHOLE = { scope: 0, range: 0, variables: [] };
const OF_INNER = { scope: 2, range: 2, variables: [] };
const OF_OUTER = { scope: 1, range: 1, variables: [{ nameId: 4, name: 'a', valueId: 6, value: 'x' }] };

// A scope with a, b and c, of which two items tell, and its code from 2:5 to 4:9. a is x, from 2:9 on y, from 3:2 on nothing, and z from
// 3:5 on; b is x from 3:0 on.
const SPLIT = 'BAAA,DAC,DC,CJA,EDCFA,GEAG,HAAEFBCAADG,HCAAA,HBBAE,FCJ';
const SPLIT_NAMES = ['a', 'b', 'c', 'x', 'y', 'z'];
const SPLIT_ROWS = [[2, 5, 'x', null], [2, 8, 'x', null], [2, 9, 'y', null], [2, NO_ID, 'y', null], [3, 0, 'y', 'x'], [3, 1, 'y', 'x'], [3, 2, null, 'x'], [3, 4, null, 'x'], [3, 5, 'z', 'x'], [4, 8, 'z', 'x']];

test('a scope with variables, one without a value, and one with two', () => {
  const scopes = Scopes.decode('BAAA,DAC,CJA,ECAA,GAD,HBBBE,FCE', ['a', 'b', 'x', 'y']);
  assert.deepEqual(scopes.scopes, [scope(0, 0, [0, 0], [9, 0], null, null, null, null, false, null)]);
  assert.deepEqual(scopes.ranges, [range(0, [0, 0], [2, 4], 0, false, false, null, null)]);
  assert.deepEqual(scopes.variables(0), [{ nameId: 0, name: 'a' }, { nameId: 1, name: 'b' }]);
  for (const [line, column, valueId, value] of [[0, 0, 2, 'x'], [1, 0, 2, 'x'], [1, 1, 3, 'y'], [2, 3, 3, 'y']]) {
    assert.deepEqual([scopes.valueAt(0, 0, line, column), scopes.valueAt(0, 1, line, column)], [null, { valueId, value }], `${line}:${column}`);
    assert.deepEqual(scopes.scopeChainAt(line, column), [{ scope: 0, range: 0, variables: [none(0, 'a'), { nameId: 1, name: 'b', valueId, value }] }]);
  }
});

test('variables of scopes, and values in ranges', () => {
  const scopes = Scopes.decode(INLINED, NAMES);
  const listed = [0, 1, 2, 3, NO_ID].map((index) => scopes.variables(index));
  assert.deepEqual(listed, [[], [{ nameId: 4, name: 'a' }], [], null, null]);
  const rows = [[1, 0, 10, 'x'], [1, 0, 39, 'x'], [1, 1, 10, null], [1, NO_ID, 10, null], [0, 0, 10, null], [2, 0, 20, null], [3, 0, 20, null], [NO_ID, 0, 20, null]];
  for (const [index, variable, column, value] of rows) {
    const wanted = value === null ? null : { valueId: 6, value };
    assert.deepEqual(scopes.valueAt(index, variable, 0, column), wanted, `${index} ${variable} ${column}`);
    assert.deepEqual(scopes.valueAt(index, variable, { line: 0, column }), wanted);
  }
});

test('sub-ranges of values', () => {
  const scopes = Scopes.decode(SPLIT, SPLIT_NAMES);
  assert.deepEqual(scopes.variables(0).map((it) => it.name), ['a', 'b', 'c']);
  for (const [line, column, ...values] of SPLIT_ROWS) {
    const wanted = [...values, null, null];
    assert.deepEqual(wanted.map((_, i) => scopes.valueAt(0, i, line, column)?.value ?? null), wanted, `${line}:${column}`);
    if (column === NO_ID) continue;
    assert.deepEqual(scopes.scopeChainAt(line, column)[0].variables.map((it) => it.value), wanted.slice(0, 3));
  }
});

test('the scopes around a position, and those of its frames', () => {
  const scopes = Scopes.decode(INLINED, NAMES);
  const rows = [[9, [WHOLE]], [10, [OF_OUTER, WHOLE]], [15, [OF_OUTER, WHOLE]], [20, [OF_INNER, WHOLE]], [25, [OF_INNER, WHOLE]], [29, [OF_INNER, WHOLE]], [30, [OF_OUTER, WHOLE]], [40, [WHOLE]]];
  for (const [column, chain] of rows) {
    assert.deepEqual(scopes.scopeChainAt(0, column), chain, `${column}`);
    assert.deepEqual(scopes.scopeChainAt({ line: 0, column }), chain);
  }
  assert.deepEqual(scopes.scopeChainAt(1, 0), []);
  assert.deepEqual(scopes.scopeChain(0, 0, 25), [OF_INNER, WHOLE]);
  assert.deepEqual(scopes.scopeChain(1, { line: 0, column: 25 }), [OF_OUTER, WHOLE]);
  assert.deepEqual(scopes.scopeChain(0, 0, 15), [OF_OUTER, WHOLE]);
  assert.deepEqual([scopes.scopeChain(2, 0, 25), scopes.scopeChain(NO_ID, 0, 25), scopes.scopeChain(1, 0, 15), scopes.scopeChain(0, 1, 0)], [null, null, null, null]);
  assert.deepEqual(Scopes.decode('ENDC,FCH', []).scopeChainAt(4, 0), []);
});

test('a scope in two ranges, one in the other: the inner one counts', () => {
  const values = (chain) => chain.map((it) => [it.scope, it.range, it.variables[0].value]);
  const recursive = Scopes.decode('BFAAA,DC,CJA,EGAA,GD,ECKA,GE,IABB,FK,FU', ['f', 'a', 'x', 'y']);
  for (const [column, index, value] of [[0, 0, 'x'], [9, 0, 'x'], [10, 1, 'y'], [19, 1, 'y'], [20, 0, 'x'], [39, 0, 'x']]) {
    assert.deepEqual(values(recursive.scopeChainAt(0, column)), [[0, index, value]], `${column}`);
    assert.deepEqual(values(recursive.scopeChain(0, 0, column)), [[0, index, value]]);
  }
  // The frame of the call does not see the values of the body that was inlined.
  assert.deepEqual(values(recursive.scopeChain(1, 0, 15)), [[0, 0, 'x']]);
  // The inner range is the code of none.
  const ofNone = Scopes.decode('BFAAA,DC,CJA,EGAA,GD,EAK,FK,FU', ['f', 'a', 'x']);
  assert.deepEqual([ofNone.scopeChainAt(0, 9), ofNone.scopeChainAt(0, 15), ofNone.scopeChain(0, 0, 15)].map(values), [[[0, 0, 'x']], [], []]);
  // A block in a function, whose code stands around that of the function.
  const turned = Scopes.decode('BFAAA,DC,BABA,DC,CBC,CJA,ECAC,GC,ECKD,GD,FK,FU', ['f', 'a', 'b']);
  assert.deepEqual(values(turned.scopeChainAt(0, 5)), [[1, 0, 'a'], [0, null, null]]);
  assert.deepEqual(values(turned.scopeChainAt(0, 15)), [[0, 1, 'b']]);
});

/** An index as the text has it, relative to the first one. */
function encodeSigned(index) {
  const digits = 'ABCDEFGHIJKLMNOPQRSTUVWXYZabcdefghijklmnopqrstuvwxyz0123456789+/';
  let [rest, text] = [2 * index, ''];
  for (; rest > 31; rest = Math.floor(rest / 32)) text += digits[(rest % 32) + 32];
  return text + digits[rest];
}

test('more variables and scopes than there is room for at first', () => {
  for (const many of [1, 19, 20, 21, 40, 41, 1000, 2]) {
    const listed = Scopes.decode(`BAAA,DA${'C'.repeat(many - 1)},CJA,ECAA,G${'B'.repeat(many)},FJ`, many);
    assert.deepEqual(listed.variables(0).map((it) => it.nameId), Array.from({ length: many }, (_, i) => i));
    const [{ variables }] = listed.scopeChainAt(0, 0);
    assert.deepEqual([variables.length, variables[many - 1]], [many, { nameId: many - 1, name: null, valueId: 0, value: null }]);
    const nested = Scopes.decode('BAAA,'.repeat(many) + 'CJA' + ',CAA'.repeat(many - 1) + `,ECA${encodeSigned(many - 1)},FJ`, 0);
    const chain = nested.scopeChain(0, 0, 0);
    assert.deepEqual(chain.map((it) => it.scope), Array.from({ length: many }, (_, i) => many - 1 - i));
  }
});

test('variables without the texts of names', () => {
  const scopes = Scopes.decode(INLINED, 7);
  assert.deepEqual(scopes.variables(1), [{ nameId: 4, name: null }]);
  assert.deepEqual(scopes.valueAt(1, 0, 0, 10), { valueId: 6, value: null });
  assert.deepEqual(scopes.scopeChainAt(0, 10)[0].variables, [{ nameId: 4, name: null, valueId: 6, value: null }]);
  assert.deepEqual(Scopes.read(VALUE).scopeChainAt(0, 10)[0], OF_OUTER);
});


test('the scopes of two sources', () => {
  const scopes = Scopes.decode('BFAAA,CEA,BFBAA,CFA,EGAC,FJ,EGAD,FBC', ['f']);
  assert.equal(scopes.counts.sources, 2);
  assert.deepEqual(scopes.scopes, [
    scope(0, 0, [0, 0], [4, 0], 0, 'f', null, null, true, null),
    scope(1, 1, [1, 0], [6, 0], 0, 'f', null, null, true, null),
  ]);
  assert.deepEqual(scopes.ranges, [range(0, [0, 0], [0, 9], 1, true, false, null, null), range(1, [0, 9], [1, 2], 0, true, false, null, null)]);
  assert.equal(scopes.framesAt(0, 8).frames[0].scope, 1);
  assert.equal(scopes.framesAt(0, 9).frames[0].scope, 0);
});

test('a call in another source', () => {
  const scopes = Scopes.decode('BEAAA,CJA,A,BEAAA,CJA,EAA,IAFC,EAA,ICCD,FJ,FA', 0);
  assert.deepEqual(scopes.framesAt(0, 3).frames, [frame(null, null, null, null), frame(null, null, 1, { sourceId: 2, line: 2, column: 3 }), frame(null, null, 0, { sourceId: 0, line: 5, column: 2 })]);
});

test('more frames than there is room for at first', () => {
  for (const depth of [1, 7, 8, 9, 300, 1024, 2]) {
    const scopes = Scopes.decode('BEAAA,CgBA,' + 'EAA,IABA,'.repeat(depth) + 'FC' + ',FA'.repeat(depth - 1), 0);
    const { frames } = scopes.framesAt(0, 1);
    assert.equal(frames.length, depth + 1);
    assert.deepEqual(frames[0], frame(null, null, null, null));
    assert.ok(frames.slice(1).every((it) => it.scope === 0 && it.call.line === 1));
    assert.deepEqual(scopes.range(depth - 1)?.parent, depth === 1 ? null : depth - 2);
  }
});

test('names: their texts where they are known, and their ids', () => {
  const told = (scopes) => scopes.framesAt(0, 25).frames.map((it) => [it.nameId, it.name]);
  const unknown = [[5, null], [2, null]];
  const known = [[5, 'inner'], [2, 'outer']];
  for (const names of [NAMES, Object.freeze([...NAMES]), new Set(NAMES), vm.runInNewContext('[...n]', { n: NAMES })]) assert.deepEqual(told(Scopes.decode(INLINED, names)), known);
  for (const names of [7, 8, NO_ID]) assert.deepEqual(told(Scopes.decode(Buffer.from(INLINED), names)), unknown);
  const later = [...NAMES];
  const scopes = Scopes.decode(INLINED, later);
  later[5] = 'another';
  assert.deepEqual(told(scopes), known);
  assert.equal(Scopes.decode(INLINED, 7).scope(1).kind, null);
  assert.deepEqual(told(Scopes.read({ ...VALUE, names: [0, 1, { a: 1 }, 3, 4, 5, 6] })), unknown);
  const value = { ...VALUE, names: [...NAMES] };
  const ofValue = Scopes.read(value);
  value.names[5] = 'another';
  assert.deepEqual(told(ofValue), known);
  const odd = ['größe 😀', ''];
  assert.deepEqual(Scopes.decode('BFAAA,CBA,BFAAC,CBA', odd).scopes.map((it) => it.name), odd);
});

test('scopes of a map, by its text, its bytes, its value and its URL', () => {
  const json = JSON.stringify(VALUE);
  const url = `data:application/json;base64,${Buffer.from(json).toString('base64')}`;
  const shared = new Uint8Array(new SharedArrayBuffer(json.length));
  shared.set(Buffer.from(json));
  for (const given of [json, Buffer.from(json), shared, VALUE, { toJSON: () => VALUE }, new URL(url), { ...VALUE, mappings: [[[0]]] }]) {
    const scopes = Scopes.read(given);
    assert.deepEqual([scopes.scopes, scopes.ranges], [SCOPES, RANGES]);
    assert.deepEqual(scopes.framesAt(0, 25).frames, INNER);
  }
});

test('frames with their places', () => {
  const json = { version: 3, sources: ['a.ts'], names: ['outer', 'inner'], mappings: 'AAAA,UAEE,U', scopes: 'BFAAA,BFCAC,CCA,CFA,EGAA,ECKC,IAFC,FF,FF,EIF,IFBC,FF' };
  const [map, scopes] = [new SourceMap(json), Scopes.read(json)];
  const [inner, outer] = [{ name: 'inner', source: 'a.ts', line: 2, column: 2 }, { name: 'outer', source: 'a.ts', line: 5, column: 2 }];
  const first = { name: 'outer', source: 'a.ts', line: 0, column: 0 };
  for (const it of [map, new CompiledMap(map.compile())]) {
    assert.deepEqual(scopes.trace(it, 0, 12), { frames: [inner, outer], isHidden: false });
    assert.deepEqual(scopes.trace(it, { line: 0, column: 12 }), { frames: [inner, outer], isHidden: false });
    assert.deepEqual(scopes.trace(it, 0, 3), { frames: [first], isHidden: false });
    // where no mapping is, no range, and neither
    assert.deepEqual(scopes.trace(it, 0, 26).frames, [{ name: null, source: null, line: null, column: null }, { name: null, source: null, line: 1, column: 2 }]);
    assert.deepEqual(Scopes.decode('', 0).trace(it, 0, 12).frames, [{ ...inner, name: null }]);
    assert.deepEqual(scopes.trace(it, 9, 0), { frames: [], isHidden: false });
    assert.deepEqual(scopes.trace(it, { line: 0, column: 0, bias: Bias.AFTER }).frames, [first]);
  }
  assert.deepEqual(Scopes.decode('EMA,FK', 0).trace(map, 0, 3), { frames: [], isHidden: true });
  assert.ok(Object.isFrozen(scopes.trace(map, 0, 12)) && Object.isFrozen(scopes.trace(map, 0, 12).frames[1]));
  for (const it of [null, undefined, {}, scopes, json]) assert.throws(() => scopes.trace(it, 0, 0), TypeError);
  assert.equal(scopes.functionAt({ sourceId: 0, line: 3, column: 0 }).name, 'inner');
  assert.equal(scopes.scopeAt({ source: 0, line: 3, column: 0 }).name, 'inner');
});

// ---- what a debugger shows ----

const GLOBAL_VIEW = { kind: 'global', name: null, ...WHOLE };
const INNER_VIEW = { kind: 'function', name: 'inner', ...OF_INNER };
const OUTER_VIEW = { kind: 'function', name: 'outer', ...OF_OUTER };

test('frames with their scopes, and the values of variables', () => {
  const [map, scopes] = [new SourceMap(VALUE), Scopes.read(VALUE)];
  const place = (name, line, column, source = 's.ts') => ({ name, source, line, column });
  // Columns 0, 10 and 20 are lines 0, 2 and 6 of the source, and inner was called at 3:4.
  const rows = [
    [0, 5, [{ ...place(null, 0, 0), scopes: [GLOBAL_VIEW] }]],
    [0, 15, [{ ...place('outer', 2, 4), scopes: [OUTER_VIEW, GLOBAL_VIEW] }]],
    [0, 25, [{ ...place('inner', 6, 4), scopes: [INNER_VIEW, GLOBAL_VIEW] }, { ...place('outer', 3, 4), scopes: [OUTER_VIEW, GLOBAL_VIEW] }]],
    // (behind all ranges and mappings)
    [1, 0, []],
  ];
  for (const it of [map, new CompiledMap(map.compile())]) {
    for (const [line, column, frames] of rows) {
      assert.deepEqual(scopes.view(it, line, column), { frames, isHidden: false }, `${line}:${column}`);
      assert.deepEqual(scopes.view(it, { line, column }), { frames, isHidden: false });
    }
  }
  const found = scopes.view(map, 0, 25);
  for (const it of [found, found.frames, found.frames[1], found.frames[1].scopes, found.frames[1].scopes[0], found.frames[1].scopes[0].variables[0]]) assert.ok(Object.isFrozen(it));
});

test('what a debugger shows of a recursion, of a helper, and where scopes, names or mappings say nothing', () => {
  // f with a, inlined into itself at columns 10 to 20, where a is y, and called from 1:1 where a is x.
  const json = { version: 3, sources: ['a.js'], names: ['f', 'a', 'x', 'y'], mappings: 'AAAA,UAEI', scopes: 'BFAAA,DC,CJA,EGAA,GD,ECKA,GE,IABB,FK,FU' };
  const map = new SourceMap(json);
  const told = ({ frames }) => frames.map((it) => [it.name, it.source, it.line, it.column, it.scopes.map(({ variables }) => variables.map(({ name, value }) => `${name}=${value}`).join())]);
  const [here, call] = [['f', 'a.js', 2, 4], ['f', 'a.js', 1, 1]];
  assert.deepEqual(told(Scopes.read(json).view(map, 0, 15)), [[...here, ['a=y']], [...call, ['a=x']]]);
  assert.deepEqual(told(Scopes.read(json).view(map, 0, 25)), [[...here, ['a=x']]]);
  assert.deepEqual(told(Scopes.decode(json.scopes, 4).view(map, 0, 15)), [[null, 'a.js', 2, 4, ['null=null']], [null, 'a.js', 1, 1, ['null=null']]]);
  const [{ scopes }] = Scopes.decode(json.scopes, 4).view(map, 0, 15).frames;
  assert.deepEqual(scopes, [{ kind: null, name: null, scope: 0, range: 1, variables: [{ nameId: 1, name: null, valueId: 3, value: null }] }]);
  // a helper; no range, with and without a mapping; a range that is the code of no scope
  assert.deepEqual(Scopes.decode('EMA,FK', 0).view(map, 0, 3), { frames: [], isHidden: true });
  assert.deepEqual(told(Scopes.decode('', 0).view(map, 0, 12)), [[null, 'a.js', 2, 4, []]]);
  assert.deepEqual(told(Scopes.decode('EAA,FK', 0).view(map, 0, 3)), [[null, 'a.js', 0, 0, []]]);
  const unmapped = new SourceMap({ ...json, mappings: 'AAAA,U' });
  assert.deepEqual(told(Scopes.read(json).view(unmapped, 0, 25)), [['f', null, null, null, ['a=x']]]);
  const late = new SourceMap({ ...json, mappings: 'KAEI' });
  assert.deepEqual(told(Scopes.read(json).view(late, 0, 1)), [['f', null, null, null, ['a=x']]]);
  assert.deepEqual(told(Scopes.read(json).view(late, 0, 1, Bias.CLAMPED)), [[...here, ['a=x']]]);
  assert.deepEqual(told(Scopes.read(json).view(late, { line: 0, column: 1, bias: Bias.CLAMPED })), [[...here, ['a=x']]]);
  for (const it of [null, undefined, {}, Scopes.read(json), json]) assert.throws(() => Scopes.read(json).view(it, 0, 0), { name: 'TypeError', message: 'The map is neither a SourceMap nor a CompiledMap' });
  assert.throws(() => Scopes.read(json).view(map, 0), { name: 'TypeError', message: 'The column is undefined, and not an integer from 0 to 4294967295' });
});

test('maps without scopes, and what is not looked at', () => {
  const none = { sources: 0, scopes: 0, ranges: 0 };
  const values = [{ mappings: '' }, { mappings: 1, scopes: null }, { sections: null }, { toJSON: () => null }, { toJSON: () => 'a' }, { mappings: '', scopes: '' }, { version: 3, scopes: null }, { scopes: null }, { version: 3 }, Object.assign(Object.create(null), { scopes: '' })];
  for (const value of values) {
    assert.deepEqual(Scopes.read(value).counts, none);
    assert.deepEqual(Scopes.read(JSON.stringify(value)).counts, none);
    assert.deepEqual(Scopes.read(value).scopes, []);
  }
  assert.deepEqual(Scopes.read({ mappings: '', scopes: 'BEAAA,CBA', names: 'f' }).counts.scopes, 1);
  for (const it of [{ version: 3, names: NAMES, scopes: INLINED }, { names: NAMES, scopes: INLINED }]) assert.deepEqual(Scopes.read(it).framesAt(0, 25).frames, INNER);
  for (const names of [undefined, 'abc', { length: 9 }, []]) {
    for (const it of [{ mappings: '', names, scopes: 'BBAAA,CBA' }, JSON.stringify({ names, scopes: 'BBAAA,CBA' })]) fails({ code: 'SMAP_BAD_SCOPES', reason: 'BAD_INDEX' }, () => Scopes.read(it));
  }
  assert.equal(Scopes.read('{"names":["a"],"scopes":"BBAAC,CBA","names":["x","f"]}').scope(0).name, 'f');
});

/** A text for each fault, the number of names, and the byte of its item. */
const FAULTS = [
  ['A,*', 0, 'NOT_A_DIGIT', 2, 'a character is no base64 digit'],
  ['A,A ', 0, 'NOT_A_DIGIT', 2, 'a character is no base64 digit'],
  ['A,Bg', 0, 'CUT_SHORT', 2, 'the last number is cut short'],
  ['BAAA,CgggggggB', 0, 'TOO_LARGE', 5, 'a number is too large'],
  ['BAAA,C//////fA,C//////fA,C//////fA', 0, 'TOO_LARGE', 5, 'a number is too large'],
  ['A,,A', 0, 'MISSING_NUMBER', 2, 'a number is missing'],
  ['A,BA', 0, 'MISSING_NUMBER', 2, 'a number is missing'],
  ['BBAAC,CBA', 1, 'BAD_INDEX', 0, 'an index leads to no name, scope or value'],
  ['BBAAD,CBA', 9, 'BAD_INDEX', 0, 'an index leads to no name, scope or value'],
  ['A,ECAA,FA', 1, 'BAD_INDEX', 2, 'an index leads to no name, scope or value'],
  ['A,CAA', 0, 'NOTHING_OPEN', 2, 'no scope or range is open'],
  ['FA', 0, 'NOTHING_OPEN', 0, 'no scope or range is open'],
  ['A,IAAA', 0, 'NOTHING_OPEN', 2, 'no scope or range is open'],
  ['BAAA,A,CBA', 0, 'NOT_CLOSED', 5, 'the scopes before it are not closed'],
  ['BAAA,'.repeat(1024) + 'BAAA', 0, 'TOO_DEEP', 5120, 'more than 1024 scopes or ranges are nested'],
  ['EAA,'.repeat(1024) + 'EAA', 0, 'TOO_DEEP', 4096, 'more than 1024 scopes or ranges are nested'],
  ['A,BAAA', 0, 'LEFT_OPEN', 6, 'a scope or a range has no end'],
  ['EAA', 0, 'LEFT_OPEN', 3, 'a scope or a range has no end'],
  ['EAA,GB,HABAB,HABAB', 1, 'SPLIT_TWICE', 13, 'the value has sub-ranges already'],
];

test('each fault of a text', () => {
  for (const [text, names, reason, byte, words] of FAULTS) {
    const properties = { code: 'SMAP_BAD_SCOPES', reason, detail: byte, field: null, place: null, placeMessage: '', message: `scopes, byte ${byte}: ${words}` };
    fails(properties, () => Scopes.decode(text, names));
    fails(properties, () => Scopes.decode(Buffer.from(text), Array(names).fill('n')));
    fails(properties, () => Scopes.read({ mappings: '', names: Array(names).fill('n'), scopes: text }));
    fails(properties, () => Scopes.read(JSON.stringify({ names: Array(names).fill('n'), scopes: text })));
  }
  assert.deepEqual([...new Set(FAULTS.map((it) => it[2]))].sort(), SCOPES_FAULTS.slice(1).sort());
  assert.equal(Scopes.decode('BAAA,'.repeat(1024) + 'C/////DA' + ',CAA'.repeat(1023), 0).counts.scopes, 1024);
});

test('other errors', () => {
  for (const it of [{ mappings: '', scopes: 1 }, { mappings: '', scopes: [INLINED] }, '{"scopes":1}', '{"scopes":{}}', Buffer.from('{"scopes":false}')]) {
    fails({ code: 'SMAP_SCOPES_NOT_TEXT', reason: null, detail: 0, message: '`scopes` is no text' }, () => Scopes.read(it));
  }
  for (const it of [{ sections: [{ offset: at(0, 0), map: VALUE }] }, { sections: [], scopes: 'A' }, { sections: 0, scopes: 7 }, '{"sections":[]}', '{"sections":{},"scopes":7}']) {
    fails({ code: 'SMAP_SCOPES_INDEXED', detail: 0, message: 'the scopes of an indexed map are not read' }, () => Scopes.read(it));
  }
  assert.equal(Scopes.read({ sections: null, scopes: 'A' }).counts.sources, 1);
  for (const it of ['', '{', '[1', '\ufeff{}']) fails({ code: 'SMAP_JSON_READING', reason: null, place: null }, () => Scopes.read(it));
  fails({ code: 'SMAP_NOT_UTF8', detail: 2, reason: null }, () => Scopes.read(Uint8Array.of(0x7b, 0x7d, 0xff)));
  fails({ code: 'SMAP_NOT_UTF8', detail: 1 }, () => Scopes.decode(Uint8Array.of(0x41, 0xff), 0));
  fails({ code: 'SMAP_JSON_SHAPE', field: 'mappings', reason: null }, () => new SourceMap('{"version":3,"names":[],"sources":[]}'));
  fails({ code: 'SMAP_VLQ_OVERFLOW', reason: null }, () => SourceMap.fromMappings('ggggggggggggC'));
});

test('arguments of other types', () => {
  const scopes = Scopes.decode(INLINED, NAMES);
  for (const it of [undefined, null, 1, true, {}, [], { toJSON: () => undefined }, () => 1, Symbol('a'), new Uint16Array(2), new Map(), scopes, { names: [] }]) assert.throws(() => Scopes.read(it), TypeError);
  const map = new SourceMap(TEXT);
  assert.throws(() => Scopes.read(new CompiledMap(map.compile())), TypeError);
  assert.throws(() => Scopes.read(map), { name: 'TypeError', message: 'A SourceMap keeps no scopes: read them from what it was read from' });
  for (const it of [undefined, null, 1, {}, ['A'], new Uint16Array(2), '\ud800']) assert.throws(() => Scopes.decode(it, 0), TypeError);
  for (const it of [undefined, null, '7', true, 1n, {}, Symbol('a')]) assert.throws(() => Scopes.decode('', it), TypeError);
  assert.throws(() => Scopes.decode('', 'f'), { name: 'TypeError', message: 'names is not a list' });
  for (const [names, words] of [[[1, null], 'names[0] is 1'], [['f', null], 'names[1] is null'], [new Set(['f', 'g', {}]), 'names[2] is of the type object'], [['f', , 'g'], 'names[1] is undefined'], [[Buffer.from('f')], 'names[0] is of the type object']]) {
    assert.throws(() => Scopes.decode('', names), { name: 'TypeError', message: `${words}, and not a string` });
  }
  for (const it of [-1, 0.5, NaN, 2 ** 32]) assert.throws(() => Scopes.decode('', it), { name: 'RangeError', message: `The number of names is ${it}, and not an integer from 0 to 4294967295` });
  assert.throws(() => scopes.framesAt(0), { name: 'TypeError', message: 'The column is undefined, and not an integer from 0 to 4294967295' });
  assert.throws(() => scopes.framesAt({ column: 0 }), { message: 'The line is undefined, and not an integer from 0 to 4294967295' });
  assert.throws(() => scopes.scopeAt('s.ts', 0, 0), { message: 'The source is "s.ts", and not an integer from 0 to 4294967295' });
  assert.throws(() => scopes.variables(), { name: 'TypeError', message: 'The scope is undefined, and not an integer from 0 to 4294967295' });
  assert.throws(() => scopes.valueAt('0', 0, 0, 0), { message: 'The range is "0", and not an integer from 0 to 4294967295' });
  assert.throws(() => scopes.valueAt(0, 'a', 0, 0), { message: 'The variable is "a", and not an integer from 0 to 4294967295' });
  assert.throws(() => scopes.scopeChain(-1, 0, 0), { name: 'RangeError', message: 'The frame is -1, and not an integer from 0 to 4294967295' });
  assert.throws(() => scopes.scopeChainAt(0), { message: 'The column is undefined, and not an integer from 0 to 4294967295' });
  assert.throws(() => scopes.functionAt(0, 0, -1), { name: 'RangeError', message: 'The column is -1, and not an integer from 0 to 4294967295' });
  for (const make of [() => new Scopes(), () => new Scopes(INLINED), () => new Scopes({ handle: native.decodeScopes('', 0), names: null })]) {
    assert.throws(make, { name: 'TypeError', message: 'Scopes are made by Scopes.read and Scopes.decode' });
  }
  assert.throws(() => Scopes.prototype.framesAt.call(map, 0, 0), TypeError);
  assert.deepEqual(scopes.framesAt(0, 25).frames, INNER);
});

test('what is answered is frozen', () => {
  const scopes = Scopes.decode(INLINED, NAMES);
  const [found, [outer]] = [scopes.framesAt(0, 25), scopes.framesAt(0, 15).frames];
  const one = scopes.scopeAt(0, 1, 0);
  const part = scopes.rangeAt(0, 25);
  const [chain, variables] = [scopes.scopeChain(1, 0, 25), scopes.variables(1)];
  for (const it of [chain, chain[0], chain[0].variables, chain[0].variables[0], variables, variables[0], scopes.valueAt(1, 0, 0, 10)]) assert.ok(Object.isFrozen(it));
  for (const it of [found, found.frames, outer, found.frames[1].call, one, one.start, one.end, part, part.start, part.end, part.call, scopes.scopes, scopes.ranges]) assert.ok(Object.isFrozen(it));
});

const ASKS = [
  (it) => it.counts,
  (it) => it.scopes,
  (it) => it.ranges,
  (it) => it.scope(0),
  (it) => it.range(0),
  (it) => it.scopeAt(0, 0, 0),
  (it) => it.functionAt(0, 0, 0),
  (it) => it.rangeAt(0, 0),
  (it) => it.framesAt(0, 25),
  (it) => it.variables(1),
  (it) => it.valueAt(1, 0, 0, 10),
  (it) => it.scopeChainAt(0, 25),
  (it) => it.scopeChain(1, 0, 25),
  (it) => it.trace(new SourceMap(VALUE), 0, 25),
  (it) => it.view(new SourceMap(VALUE), 0, 25),
];

test('scopes that were freed', () => {
  const [scopes, other] = [Scopes.decode(INLINED, NAMES), Scopes.decode(INLINED, NAMES)];
  scopes.free();
  for (const ask of ASKS) {
    fails({ code: 'SMAP_NULL_HANDLE', message: 'The scopes were freed', detail: 0, field: null, reason: null, place: null }, () => ask(scopes));
    ask(other);
  }
  const map = new SourceMap(VALUE);
  map.free();
  for (const name of ['trace', 'view']) fails({ code: 'SMAP_NULL_HANDLE', message: 'It was freed, or its buffer was transferred' }, () => other[name](map, 0, 25));
  scopes.free();
  assert.equal(inspect(scopes), 'Scopes (freed)');
  assert.deepEqual(other.framesAt(0, 25).frames, INNER);
  assert.equal(Scopes.prototype[Symbol.dispose ?? Symbol.for('nodejs.dispose')], Scopes.prototype.free);
});

test('handles of another kind', () => {
  const handles = [native.fromJson(TEXT), native.builderNew(), native.joinNew(), native.openCompiled(Uint8Array.from(new SourceMap(TEXT).compile())), {}, null];
  const scopes = native.decodeScopes(INLINED, 7);
  for (const it of handles) {
    for (const call of [() => native.scopesCounts(it), () => native.getScope(it, 0), () => native.getRange(it, 0), () => native.scopeAt(it, 0, 0, 0), () => native.functionAt(it, 0, 0, 0), () => native.rangeAt(it, 0, 0), () => native.framesAt(it, 0, 0, new Uint32Array(5)), () => native.getVariables(it, 0, new Uint32Array(5)), () => native.valueAt(it, 0, 0, 0, 0), () => native.scopeChainAt(it, 0, 0, new Uint32Array(5)), () => native.scopeChain(it, 0, 0, 0, new Uint32Array(5))]) {
      assert.throws(call, TypeError);
    }
  }
  for (const call of [() => native.getCounts(scopes), () => native.select(scopes), () => native.compiledCounts(scopes), () => native.getToken(scopes, 0), () => native.clone(scopes), () => native.joinAll([scopes], new Uint32Array(2))]) assert.throws(call, TypeError);
  assert.throws(() => new CompiledMap(scopes), TypeError);
});

test('frames as words: as many as there is room for', () => {
  const scopes = native.decodeScopes(INLINED, 7);
  const whole = [5, 2, NO_ID, NO_ID, NO_ID, 2, 1, 0, 3, 4];
  for (const [length, written] of [[0, 0], [4, 0], [5, 5], [9, 5], [10, 10], [14, 10], [15, 10]]) {
    const out = new Uint32Array(length + 1).fill(7);
    assert.equal(native.framesAt(scopes, 0, 25, out.subarray(0, length)), 0);
    assert.deepEqual([native.words[0], native.words[1]], [2, 0]);
    assert.deepEqual([...out], [...whole.slice(0, written), ...Array(length + 1 - written).fill(7)]);
  }
  const shared = new Uint32Array(new SharedArrayBuffer(40));
  assert.equal(native.framesAt(scopes, 0, 25, shared), 0);
  assert.deepEqual([...shared], whole);
  assert.equal(native.framesAt(native.decodeScopes('ENDC,FCH', 0), 3, 2, shared), 0);
  assert.deepEqual([...native.words.subarray(0, 2), ...shared.subarray(0, 5)], [1, 1, NO_ID, NO_ID, NO_ID, NO_ID, NO_ID]);
  native.free(scopes);
  assert.equal(native.framesAt(scopes, 0, 25, shared), 100);
});

test('chains and variables as words: as many as there is room for', () => {
  const [scopes, split] = [native.decodeScopes(INLINED, 7), native.decodeScopes(SPLIT, 6)];
  const rows = [
    [[0, 1, 2], 1, (out) => native.getVariables(split, 0, out)],
    [[2, 2, 0, 0], 2, (out) => native.scopeChainAt(scopes, 0, 25, out)],
    [[1, 1, 0, 0], 2, (out) => native.scopeChain(scopes, 1, 0, 25, out)],
    [[2, 2, 0, 0], 2, (out) => native.scopeChain(scopes, 0, 0, 25, out)],
  ];
  for (const [whole, size, list] of rows) {
    for (let length = 0; length <= whole.length + 1; length++) {
      const written = Math.min(whole.length, length - (length % size));
      const out = new Uint32Array(length + 1).fill(7);
      assert.deepEqual([list(out.subarray(0, length)), native.words[0]], [0, whole.length / size]);
      assert.deepEqual([...out], [...whole.slice(0, written), ...Array(length + 1 - written).fill(7)]);
    }
    const shared = new Uint32Array(new SharedArrayBuffer(4 * whole.length));
    assert.deepEqual([list(shared), ...shared], [0, ...whole]);
  }
  assert.deepEqual([native.valueAt(scopes, 1, 0, 0, 10), native.words[0]], [0, 6]);
  assert.deepEqual([native.valueAt(scopes, 0, 0, 0, 10), native.words[0]], [0, NO_ID]);
  const out = new Uint32Array(2);
  assert.deepEqual([native.valueAt(scopes, 3, 0, 0, 10), native.getVariables(scopes, 3, out), native.scopeChain(scopes, 3, 0, 0, out)], [103, 103, 103]);
  for (const it of [scopes, split]) native.free(it);
  assert.deepEqual([...rows.map(([, , list]) => list(out)), native.valueAt(scopes, 1, 0, 0, 10)], [100, 100, 100, 100, 100]);
});

test('the stack of a source, by a map and its scopes', () => {
  const [map, scopes] = [new SourceMap(VALUE), Scopes.read(VALUE)];
  const stackAt = (line, column) => {
    const { frames, isHidden } = scopes.framesAt(line, column);
    const { sourceId, originalLine, originalColumn } = map.traceToken(line, column);
    const here = { sourceId, line: originalLine, column: originalColumn };
    return isHidden ? [] : frames.map(({ name, call }) => [name, map.sources[(call ?? here).sourceId], (call ?? here).line, (call ?? here).column]);
  };
  assert.deepEqual(stackAt(0, 25), [['inner', 's.ts', 6, 4], ['outer', 's.ts', 3, 4]]);
  assert.deepEqual(stackAt(0, 15), [['outer', 's.ts', 2, 4]]);
});

/** What a script in a new process says, which has the package as `library`. */
function run(script, ...options) {
  const whole = `const { Scopes } = require(${JSON.stringify(require.resolve('..'))}); const TEXT = ${JSON.stringify(INLINED)}; const NAMES = ${JSON.stringify(NAMES)}; ${script}`;
  return JSON.parse(execFileSync(process.execPath, [...options, '-e', whole], { encoding: 'utf8' }));
}
const PEAK = 'process.stdout.write(String(process.resourceUsage().maxRSS / 1024));';

test('100,000 reads leave nothing, dropped or freed, refused or asked', { skip: isSanitized }, () => {
  const many = 'BAAA,CAA,'.repeat(500) + 'A';
  const peak = run(`const json = JSON.stringify({ names: NAMES, scopes: TEXT });
    const ends = (it, i) => i % 3 === 0 && it.free();
    for (let i = 0; i < 100_000; i++) {
      ends(i % 4 === 0 ? Scopes.read(json) : Scopes.decode(TEXT, 7), i);
      if (i % 10 === 0) ends(Scopes.decode(${JSON.stringify(many)}, 0), i);
      if (i % 4 === 1) try { Scopes.decode(TEXT, 3) } catch {}
    }
    const scopes = Scopes.decode(TEXT, 7);
    for (let i = 0; i < 100_000; i++) (scopes.framesAt(0, 25), scopes.scopeChainAt(0, 15));
    ${PEAK}`);
  assert.ok(peak < 200, `${peak} MB`);
});

test('what is freed is freed at once, and the collector knows of the rest', { skip: isSanitized }, () => {
  const peak = run(`
    const text = 'BAAA,CAA,'.repeat(100_000) + 'A';
    for (let i = 0; i < 60; i++) Scopes.decode(text, 0).free();
    for (let i = 0; i < 60; i++) Scopes.decode(text, 0);
    ${PEAK}`);
  assert.ok(peak < 300, `${peak} MB`);
});

test('of many scopes, those that are left answer when others were collected', () => {
  const said = run(
    `const kept = [];
    for (let i = 0; i < 3000; i++) {
      const it = Scopes.decode('A,'.repeat(i % 7) + TEXT, NAMES);
      if (i % 5 === 0) kept.push([i % 7, it]);
      if (i % 5 === 1) it.free();
    }
    gc();
    process.stdout.write(String(kept.filter(([before, it]) => it.counts.sources !== before + 1 || it.framesAt(0, 25).frames[0].name !== 'inner').length));`,
    '--expose-gc',
  );
  assert.equal(said, 0);
});

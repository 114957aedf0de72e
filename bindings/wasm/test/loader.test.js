'use strict';
// The loader over modules that were linked anew: a stack of 32 KiB, and a memory of 4 MiB. And memory, texts, threads and traps over the module
// as it is. MODULES in the environment is the folder: oxc_sourcemap.wasm, small_stack.wasm, small_memory.wasm.

const test = require('node:test');
const assert = require('node:assert/strict');
const { execFileSync } = require('node:child_process');
const { readFileSync } = require('node:fs');
const { join } = require('node:path');
const { Worker } = require('node:worker_threads');

const LOADER = require.resolve('../loader/index.js');
const { nativeOf, TrapError, NO_THREADS } = require(LOADER);

const folder = process.env.MODULES;
const compiled = (name) => new WebAssembly.Module(readFileSync(join(folder, name)));
const module_ = compiled('oxc_sourcemap.wasm');
const native = nativeOf(module_);

const NOTHING = new Uint32Array(0);
const NO_BYTES = new Uint8Array(0);
const json = (more) => JSON.stringify({ version: 3, sources: ['a.ts'], names: [], mappings: 'AAAA', ...more });
/** A map with a member whose lists are so deep. */
const nested = (depth) => json().replace('{', `{"x":${'['.repeat(depth)}${']'.repeat(depth)},`);
const NO_MEMORY = 10;
const NOT_TOLD = 0xffffffff;

/** A text of JSON that takes so many bytes. */
const large = (bytes) => json({ sourcesContent: ['x'.repeat(bytes)] });

/** A range of a function, in which one more was inlined. */
const SCOPES = 'BEAAA,CJA,EGAA,EAA,IAFC,FK,FU';
const FRAMES = [NOT_TOLD, NOT_TOLD, NOT_TOLD, NOT_TOLD, NOT_TOLD, NOT_TOLD, 0, 0, 5, 2];

const PLAIN = '{"version":3,"names":[],"sources":["a.ts"],"mappings":"AAAA"}';

/** Asserts that a call ends in a trap which tells what is lost. */
function traps(call, lost) {
  assert.throws(call, (error) => {
    assert.ok(error instanceof TrapError && error.cause instanceof WebAssembly.RuntimeError);
    assert.equal(error.message, `The WebAssembly module stopped in smap_from_json_string: memory access out of bounds. ${lost}`);
    return true;
  });
}

test('a trap in a large map ends it alone, and says what happened', () => {
  const small = nativeOf(compiled('small_stack.wasm'));
  const kept = [small.fromJson(json()), small.fromJson(large(100_000))];
  traps(() => small.fromJson(nested(120).padEnd(100_000)), 'The map of this call is lost, and no other');
  assert.equal(small.write(kept[0], 0, ''), PLAIN);
  assert.equal(small.text(kept[1], 2, 0).length, 100_000);
  assert.equal(typeof small.fromJson(large(100_000)), 'object');
  assert.equal(typeof native.fromJson(nested(120)), 'object');
});

test('a trap in a small map ends those that share its instance, and no other; the next ones have a new instance', () => {
  const small = nativeOf(compiled('small_stack.wasm'));
  const [lost, selected, kept] = [small.fromJson(json()), small.fromJson(json()), small.fromJson(large(100_000))];
  small.select(selected);
  assert.equal(small.trace(), undefined);
  traps(() => small.fromJson(nested(120)), 'The maps that share its memory are lost');
  for (const call of [() => small.write(lost, 0, ''), () => small.trace(), () => small.compose(kept, lost)]) assert.throws(call, TrapError);
  assert.equal(small.text(kept, 2, 0).length, 100_000);
  const next = small.fromJson(json());
  assert.equal(small.write(next, 0, ''), PLAIN);
  assert.notEqual(next.instance, lost.instance);
  for (const it of [lost, selected, next]) small.free(it);
  assert.equal(small.trace(), 100);
  assert.equal(small.write(small.fromJson(json()), 0, ''), PLAIN);
});

test('no call is made in an instance that has stopped', () => {
  const small = nativeOf(compiled('small_stack.wasm'));
  const map = small.fromJson(json());
  assert.throws(() => map.instance.call('smap_get_counts', 0xfffffff0, 0), TrapError);
  for (const call of [() => small.getCounts(map), () => small.write(map, 0, ''), () => small.clone(map), () => small.compose(map, map)]) {
    assert.throws(call, TrapError);
  }
  small.select(map);
  assert.throws(() => small.trace(), TrapError);
  small.free(map);
  assert.equal(small.trace(), 100);
  assert.equal(small.getCounts(small.fromJson(json())), 0);
});

test('a memory that is full is an error, and the next map is read', () => {
  const small = nativeOf(compiled('small_memory.wasm'));
  for (let i = 0; i < 20; i++) {
    assert.equal(small.fromJson(large(3_000_000)), NO_MEMORY);
    assert.equal(small.fault[0], NO_MEMORY);
    assert.equal(small.message(small.fault), 'Out of memory');
    const map = small.fromJson(large(100_000));
    assert.equal(small.text(map, 2, 0), 'x'.repeat(100_000));
  }
});

test('a call that finds no memory leaves the map as it was', () => {
  const small = nativeOf(compiled('small_memory.wasm'));
  const map = small.fromJson(large(900_000));
  const before = small.write(map, 0, '');
  assert.equal(before, NO_MEMORY);
  assert.equal(small.text(map, 2, 0).length, 900_000);
  assert.equal(small.setTexts(map, 2, new Uint8Array(2_000_000), Uint32Array.of(2_000_000)), NO_MEMORY);
  assert.equal(small.traceAll(map, new Uint32Array(2 * 1_000_000), 0, new Uint32Array(8 * 1_000_000)), 0);
  assert.equal(small.compose(map, map), NO_MEMORY);
  assert.equal(small.joinAll([map, small.fromJson(json())], new Uint32Array(4)), NO_MEMORY);
  assert.equal(small.text(map, 2, 0).length, 900_000);
  assert.equal(small.getCounts(map), 0);
  const join = small.joinNew();
  assert.equal(small.joinAdd(join, small.fromJson(json()), 0, 0), 0);
  const codes = Array.from({ length: 5 }, (_, i) => small.joinAdd(join, map, i, 0));
  assert.equal(codes.at(-1), NO_MEMORY);
  assert.deepEqual([...new Set(codes)].filter((it) => it !== 0), [NO_MEMORY]);
  const joined = small.joinFinish(join);
  assert.equal(small.getCounts(joined), 0);
  assert.equal(small.words[0], 1 + codes.filter((it) => it === 0).length);
});

test('scopes are where maps of such texts are, and find no memory as these', () => {
  const small = nativeOf(compiled('small_memory.wasm'));
  const ask = (it) => {
    const out = new Uint32Array(10);
    assert.equal(small.framesAt(it, 0, 3, out), 0);
    assert.deepEqual([...small.words.subarray(0, 2), ...out], [2, 0, ...FRAMES]);
  };
  const words = (count, ...call) => [small[call[0]](...call.slice(1)), ...small.words.subarray(0, count)];
  const [map, one, other] = [small.fromJson(json()), small.decodeScopes(SCOPES, 0), small.readScopes(json({ scopes: SCOPES }))];
  const large_ = small.readScopes(json({ scopes: SCOPES }).padEnd(100_000));
  assert.deepEqual([one, other].map((it) => it.instance === map.instance), [true, true]);
  assert.notEqual(large_.instance, map.instance);
  assert.equal(large_.instance.isShared, false);
  for (let i = 0; i < 9; i++) assert.equal(small.readScopes(json({ x: 'x'.repeat(3_000_000) })), NO_MEMORY);
  assert.deepEqual([small.fault[0], small.message(small.fault)], [NO_MEMORY, 'Out of memory']);
  for (const it of [one, other, large_]) ask(it);
  assert.deepEqual(words(6, 'scopesCounts', one), [0, 1, 0, 1, 0, 2, 0]);
  assert.deepEqual(words(9, 'getScope', one, 0), [0, 0, 0, 0, 9, 0, NOT_TOLD, NOT_TOLD, 1, NOT_TOLD]);
  assert.deepEqual(words(11, 'getRange', one, 1), [0, 0, 0, 0, 10, NOT_TOLD, 0, 0, 0, 5, 2, 0]);
  assert.deepEqual([small.scopeAt(one, 0, 9, 0), small.functionAt(one, 1, 0, 0), small.rangeAt(one, 0, 30)], [103, 103, 103]);
  assert.deepEqual(words(1, 'rangeAt', one, 0, 3), [0, 1]);
  const block = small.decodeScopes('A,BEAAA,BABC,CBA,CBA', 0);
  assert.deepEqual([...words(1, 'scopeAt', block, 1, 1, 3), ...words(1, 'functionAt', block, 1, 1, 3)], [0, 1, 0, 0]);
  small.free(block);
  const split = small.decodeScopes('BAAA,DAC,CJA,ECAA,GAD,HBBBE,FCE', 4);
  const listed = (length, name, ...call) => {
    const out = new Uint32Array(length + 1).fill(7);
    return [small[name](split, ...call, out.subarray(0, length)), small.words[0], ...out];
  };
  assert.deepEqual([listed(0, 'getVariables', 0), listed(1, 'getVariables', 0), listed(3, 'getVariables', 0)], [[0, 2, 7], [0, 2, 0, 7], [0, 2, 0, 1, 7, 7]]);
  assert.deepEqual([words(1, 'valueAt', split, 0, 0, 1, 1), words(1, 'valueAt', split, 0, 1, 1, 0), words(1, 'valueAt', split, 0, 1, 1, 1)], [[0, NOT_TOLD], [0, 2], [0, 3]]);
  assert.deepEqual([listed(1, 'scopeChainAt', 1, 0), listed(3, 'scopeChainAt', 1, 0), listed(2, 'scopeChainAt', 9, 0)], [[0, 1, 7, 7], [0, 1, 0, 0, 7, 7], [0, 0, 7, 7, 7]]);
  assert.deepEqual([listed(2, 'scopeChain', 0, 1, 0), small.scopeChain(split, 0, 9, 0, NOTHING)], [[0, 1, 0, 0, 7], 103]);
  assert.deepEqual([small.valueAt(split, 1, 0, 0, 0), small.getVariables(split, 1, NOTHING), small.scopeChain(split, 1, 1, 0, NOTHING)], [103, 103, 103]);
  small.free(split);
  assert.deepEqual([small.getVariables(split, 0, NOTHING), small.valueAt(split, 0, 0, 0, 0), small.scopeChainAt(split, 0, 0, NOTHING), small.scopeChain(split, 0, 0, 0, NOTHING)], [100, 100, 100, 100]);
  assert.deepEqual([small.decodeScopes('BBAAA,CBA', 1).isFreed, small.decodeScopes('BBAAA,CBA', 0)], [false, 27]);
  assert.equal(map.instance.held, 4);
  for (const it of [one, one, large_]) small.free(it);
  assert.deepEqual([map.instance.held, one.instance, large_.instance], [3, null, null]);
  for (const it of [one, large_]) assert.equal(small.framesAt(it, 0, 3, NOTHING), 100);
  ask(other);
  assert.equal(small.write(map, 0, ''), PLAIN);
  assert.equal(small.framesAt(other, 0, 3, new Uint32Array(5 * 1_000_000)), NO_MEMORY);
  while (other.instance.call('malloc', 64) !== 0);
  while (other.instance.call('malloc', 1) !== 0);
  for (const code of [small.framesAt(other, 0, 3, NOTHING), small.scopeChainAt(other, 0, 15, NOTHING), small.scopeChain(other, 1, 0, 3, NOTHING)]) assert.equal(code, NO_MEMORY);
  assert.deepEqual([small.fault[0], small.scopeAt(other, 0, 1, 0), small.words[0]], [NO_MEMORY, 0, 0]);
});

test('memory that grew is not read by a view from before', () => {
  const map = native.fromJson(json({ names: ['f'], mappings: 'AAAAA' }).padEnd(100_000));
  native.select(map);
  const ask = () => {
    [native.words[13], native.words[14], native.words[15]] = [0, 3, 0];
    assert.equal(native.trace(), undefined);
    assert.deepEqual([...native.words.subarray(0, 8)], [3, 0, 0, 0, 0, 0, 0, 0]);
  };
  ask();
  const before = map.instance.memory.buffer;
  assert.equal(native.setTexts(map, 2, Buffer.alloc(5_000_000, 'y'), Uint32Array.of(5_000_000)), 0);
  assert.notEqual(map.instance.memory.buffer, before);
  ask();
  assert.equal(native.text(map, 2, 0).length, 5_000_000);
});

test('addresses of 2 GiB and more have no sign', () => {
  const map = native.fromJson(json({ names: ['f'], mappings: 'AAAAA' }).padEnd(100_000));
  const below = map.instance.call('malloc', 2_200_000_000); // none of which is touched
  assert.ok(below > 0 && map.instance.memory.buffer.byteLength > 2 ** 31);
  while (map.instance.call('malloc', 16) < 2 ** 31); // so that nothing is free below
  const texts = ['größe', 'x'.repeat(100)];
  const bytes = texts.map((it) => Buffer.from(it));
  assert.equal(native.setTexts(map, 1, Buffer.concat(bytes), Uint32Array.from(bytes, (it) => it.length)), 0);
  assert.deepEqual(native.texts(map, 1), texts);
  const out = new Uint32Array(16);
  assert.equal(native.traceAll(map, Uint32Array.of(0, 0, 0, 9), 0, out), 0);
  assert.deepEqual([...out.subarray(8)], [3, 0, 0, 0, 0, 0, 0, 0]);
  const tokens = new Uint32Array(6);
  assert.equal(native.getTokens(map, tokens), 0);
  assert.deepEqual([...tokens], [0, 0, 0, 0, 0, 0]);
  assert.equal(JSON.parse(native.write(map, 0, '')).sources[0], texts[0]);
  assert.equal(native.text(native.clone(map), 1, 1), texts[1]);
});

test('answers may be written over the positions that are asked', () => {
  const map = native.fromJson(json({ mappings: 'AAAA;AACA;AACA' }));
  const count = 10_000;
  const positions = Uint32Array.from({ length: 2 * count }, (_, i) => (i % 2 === 0 ? (i / 2) % 3 : i % 5));
  const apart = new Uint32Array(8 * count);
  assert.equal(native.traceAll(map, positions, 0, apart), 0);
  const over = new Uint32Array(8 * count);
  over.set(positions);
  assert.equal(native.traceAll(map, over.subarray(0, 2 * count), 0, over), 0);
  assert.deepEqual(over, apart);
});

test('a number above 32 bits is told as the greatest one', () => {
  const join = native.joinNew();
  assert.equal(native.joinAdd(join, native.fromJson(json()), 0xffffffff, 0), 0);
  const map = native.joinFinish(join);
  assert.equal(native.getCounts(map), 0);
  assert.equal(native.words[5], NOT_TOLD);
});

test('what a call gives is not of the memory', () => {
  const map = native.fromJson(json());
  const bytes = native.writeBytes(map, 0, '');
  assert.notEqual(bytes.buffer, map.instance.memory.buffer);
  assert.ok(bytes.buffer.byteLength === bytes.length);
});

test('texts keep a leading U+FEFF, and all other letters', () => {
  const texts = ['\ufeffa', '\ufeff', '\ufeff\ufeff'.padEnd(40, 'é'), '\u0000', 'x'.repeat(23), 'x'.repeat(24) + 'é', '😀'.repeat(30)];
  const map = native.fromJson(json({ sources: texts, names: texts, sourcesContent: texts, file: texts[0] }));
  for (const which of [0, 1, 2]) assert.deepEqual(native.texts(map, which), texts);
  texts.forEach((text, i) => assert.equal(native.text(map, 1, i), text));
  assert.equal(native.text(map, 3, 0), texts[0]);
  assert.equal(JSON.parse(native.write(map, 0, '')).file, texts[0]);
  assert.equal(native.setText(map, 3, texts[2]), 0);
  assert.equal(native.text(map, 3, 0), texts[2]);
});

test('an instance that is freed is used again, a large one for a large map alone', () => {
  const first = native.fromJson(large(100_000));
  const { instance } = first;
  native.free(first);
  const again = native.fromJson(large(100_000));
  assert.equal(again.instance, instance);
  assert.equal(first.instance, null);
  const big = native.fromJson(large(5_000_000));
  const { instance: large_ } = big;
  native.free(big);
  for (let i = 0; i < 10; i++) assert.notEqual(native.fromJson(large(100_000)).instance, large_);
  const other = native.fromJson(large(4_000_000));
  assert.equal(other.instance, large_);
  assert.notEqual(native.fromJson(large(4_000_000)).instance, large_);
});

/** How many bytes of the memory of an instance are in use. */
const used = (instance) => instance.call('loader_used');

test('what is freed leaves nothing in its instance', () => {
  const map = native.fromJson(json({ names: ['a', 'b'] }));
  const { instance } = map;
  const [join, builder, large_] = [native.joinNew(), native.builderNew(), native.builderNew()];
  for (const it of [1, 2]) assert.equal(native.joinAdd(join, map, it, 0), 0);
  for (const it of [builder, large_]) assert.equal(native.builderAddSource(it, 'a', 'x'), 0);
  assert.equal(native.builderAddTokens(large_, new Uint32Array(6 * 20_000)), 0);
  const changed = native.clone(map);
  const scopes = native.decodeScopes(SCOPES, 0);
  const before = used(instance);
  const makers = [
    () => native.fromJson(json()),
    () => native.readFound('\ufeff' + json()),
    () => native.readFound(json()),
    () => native.fromTokens(new Uint32Array(6), Buffer.from('f'), Uint32Array.of(1), Buffer.from('a'), Uint32Array.of(1), NO_BYTES, NOTHING, NOTHING),
    () => native.decodeMappings('AAAA', 1, 1),
    () => native.clone(map),
    () => native.compose(map, map),
    () => native.remap(map, Buffer.from('a.ts'), Uint32Array.of(4), [map]),
    () => native.joinAll([map, map], new Uint32Array(4)),
    () => native.joinAll([], NOTHING),
    () => native.evaluate(Buffer.from('@0'), Uint32Array.of(2), Buffer.from(json()), Uint32Array.of(json().length)),
    () => native.joinFinish(join),
    () => native.builderFinish(builder),
    () => native.decodeScopes(SCOPES, 0),
    () => native.readScopes(JSON.stringify({ scopes: SCOPES })),
  ];
  for (const make of makers) {
    const made = make();
    assert.equal(made.instance, instance, String(make));
    native.free(made);
    assert.equal(used(instance), before, String(make));
  }
  assert.equal(native.fromJson('{'), 4);
  assert.equal(native.readFound('{'), 4);
  assert.equal(native.firstDifference(map, changed), 103);
  assert.equal(native.decodeScopes(`${SCOPES},B`, 0), 27);
  assert.equal(native.readScopes('{"scopes":1}'), 28);
  for (const length of [0, 5, 10, 20]) for (const name of ['framesAt', 'scopeChainAt']) assert.equal(native[name](scopes, 0, 3, new Uint32Array(length)), 0);
  assert.equal(native.encodeMappings(new Uint32Array(6)), 'AAAAA');
  assert.equal(native.decodeTokens('AAAA', 1, 1, new Uint32Array(6)), 0);
  assert.equal(native.decodeTokens('AA', 1, 1, new Uint32Array(6)), 7);
  assert.equal(native.sourceMappingURL('//# sourceMappingURL=a.map', 0), 'a.map');
  assert.equal(native.message(native.fault).length > 0, true);
  assert.equal(used(instance), before);
  const finished = native.builderFinish(large_);
  assert.notEqual(finished.instance, instance);
  for (const it of [changed, map, join, builder, large_, finished, scopes]) native.free(it);
});

// ---- instances that small maps share ----

/** What a script says, that has `native` over the module, and counts in `given` the instances which it makes; there are no more than so many. */
function run(script, most = Infinity) {
  const whole = `
    const { Instance } = WebAssembly;
    let given = 0;
    WebAssembly.Instance = class extends Instance {
      constructor(...words) {
        if (given >= ${most}) throw new RangeError('Out of memory');
        super(...words);
        given++;
      }
    };
    const { nativeOf } = require(${JSON.stringify(LOADER)});
    const native = nativeOf(new WebAssembly.Module(require('node:fs').readFileSync(${JSON.stringify(join(folder, 'oxc_sourcemap.wasm'))})));
    const text = ${JSON.stringify(json({ names: ['a', 'b', 'c'] }).padEnd(200))};
    const mappings = (length) => JSON.stringify({ version: 3, sources: ['a.ts'], names: [], mappings: 'AAAA'.padEnd(length, ',CAAC') });
    const used = (instance) => instance.call('loader_used');
    const size = (maps) => [...new Set(maps.map((it) => it.instance))].reduce((sum, it) => sum + it.memory.buffer.byteLength, 0);
    const turn = () => new Promise((resolve) => setTimeout(resolve, 20));
    const collect = async () => {
      for (let i = 0; i < 3; i++) gc(), await turn();
    };
    const say = (it) => process.stdout.write(JSON.stringify(it));
    (async () => {${script}})();`;
  return JSON.parse(execFileSync(process.execPath, ['--expose-gc', '-e', whole], { encoding: 'utf8' }));
}

test('12,000 small maps that are kept have one instance, and a kilobyte and a half each', () => {
  const [instances, bytes] = run(`
    const maps = Array.from({ length: 12_000 }, () => native.fromJson(text));
    say([given, size(maps)]);`);
  assert.equal(instances, 1);
  assert.ok(bytes < 12_000 * 1500, `${bytes}`);
});

test('a shared instance is full at 16 MiB, has room again when half is free, and goes with its last map', () => {
  const said = run(`
    let seen = 0;
    const collected = new FinalizationRegistry(() => seen++);
    const many = () => Array.from({ length: 100 }, () => native.fromJson(mappings(60_000)));
    const work = () => {
      const first = native.fromJson(text);
      const { instance } = first;
      const maps = many();
      const instances = new Set(maps.map((it) => it.instance));
      for (const it of instances) collected.register(it, 0);
      const [here, others] = [maps.filter((it) => it.instance === instance), maps.filter((it) => it.instance !== instance)];
      const out = [here.length > 10 && others.length > 10, Math.floor(used(instance) / 2 ** 20)];
      for (const it of here.splice(0, 3)) native.free(it);
      others.push(...many());
      out.push(others.some((it) => it.instance === instance));
      for (const it of here.splice(0, here.length - 2)) native.free(it);
      others.push(...many());
      out.push(others.some((it) => it.instance === instance));
      for (const it of [first, ...here, ...others]) native.free(it);
      return [...out, instances.size > 1, instances.size];
    };
    const out = work();
    await collect();
    say([...out, seen]);`);
  assert.deepEqual(said.slice(0, 5), [true, 16, false, true, true]);
  assert.equal(said[6], said[5]);
});

test('an instance that is empty again is kept if its memory is small, and else left to the collector', () => {
  const said = run(`
    let seen = 0;
    const collected = new FinalizationRegistry(() => seen++);
    const work = (count) => {
      const maps = Array.from({ length: count }, () => native.fromJson(mappings(60_000)));
      for (const it of new Set(maps.map((it) => it.instance))) collected.register(it, 0);
      for (const it of maps) native.free(it);
    };
    const out = [];
    for (const count of [1, 20]) {
      work(count);
      await collect();
      out.push(seen);
    }
    say([...out, given, native.getCounts(native.fromJson(text))]);`);
  // (the one that is kept after the first map is that of the twenty)
  assert.deepEqual(said, [0, 2, 1, 0]);
});

test('an instance whose maps are all dropped is collected, also where no turn comes to free them one by one', () => {
  for (const make of ['native.fromJson(mappings(60_000))', "native.decodeScopes('BAAA,CAA,'.repeat(7000) + 'A', 0)"]) {
    const [instances, megabytes] = run(`
      for (let i = 0; i < 1500; i++) ${make};
      say([given, process.resourceUsage().maxRSS / 1024]);`);
    assert.ok(instances > 20, `${instances}`);
    assert.ok(megabytes < 300, `${megabytes} MB, of ${16 * instances}`);
  }
});

test('maps that share an instance are freed once each: by `free`, or by the collector', () => {
  const script = `
    const kept = native.fromJson(text);
    const { instance } = kept;
    const before = used(instance);
    const all = new Set(Array.from({ length: 20 }, () => native.fromJson(text).instance));
    for (let i = 0; i < 20; i++) native.free(native.readFound(text));
    for (let i = 0; i < 20; i++) native.decodeScopes('BAAA,CBA', 0);
    for (let i = 0; i < 20; i++) native.free(native.decodeScopes('BAAA,CBA', 0));
    for (let i = 0; i < 20; i++) native.builderFinish(native.builderNew());
    await turn();
    const again = native.fromJson(text);
    native.select(native.fromJson(text));
    await collect();
    const isUnselected = native.words[12] === 0;
    const said = [kept, again, native.fromJson(text)].map((it) => native.write(it, 0, ''));
    native.free(again);
    await collect();
    say([all.size, instance.isShared, new Set(said).size, said[0].length > 50, used(instance) === before, isUnselected, instance.held]);`;
  for (const most of [Infinity, 1]) assert.deepEqual(run(script, most), [1, true, 1, true, true, true, 1], String(most));
});

test('a trap as a collected map is freed is told by the maps that are left, and nowhere else', () => {
  const said = run(`
    const kept = native.fromJson(text);
    native.fromJson(text).block.at = 0xfffffff0;
    await collect();
    const out = [kept.instance.trap !== null];
    try { native.getCounts(kept); } catch (error) { out.push(error === kept.instance.trap); }
    say([...out, native.getCounts(native.fromJson(text))]);`);
  assert.deepEqual(said, [true, true, 0]);
});

test('where the host gives no other instance after a trap, there is no memory', () => {
  const said = run(
    `
    const map = native.fromJson(text);
    try { map.instance.call('smap_get_counts', 0xfffffff0, 0); } catch {}
    say([native.fromJson(text), native.fault[0], native.builderNew(), native.decodeMappings('AAAA', 1, 1)]);`,
    1,
  );
  assert.deepEqual(said, [NO_MEMORY, NO_MEMORY, NO_MEMORY, NO_MEMORY]);
});

test('a builder and a join have an instance of their own, which the next one takes; a small map that they make goes to a shared one', () => {
  const map = native.fromJson(json());
  const [builder, join] = [native.builderNew(), native.joinNew()];
  const { instance } = builder;
  const fresh = used(instance);
  assert.notEqual(instance, map.instance);
  assert.notEqual(join.instance, instance);
  native.builderAddSource(builder, 'a.ts', 'x');
  const made = native.builderFinish(builder);
  assert.deepEqual([made.instance, builder.instance, native.text(made, 2, 0)], [map.instance, null, 'x']);
  assert.equal(native.builderNew().instance, instance);
  assert.equal(used(instance), fresh);
  native.builderAddSource(builder, 'a.ts', 'x'.repeat(1_000_000));
  const large_ = native.builderFinish(builder);
  assert.notEqual(large_.instance, map.instance);
  assert.equal(native.text(large_, 2, 0).length, 1_000_000);
  native.joinAdd(join, map, 0, 0);
  assert.equal(native.joinFinish(join).instance, map.instance);
});

test('a map that a change makes large moves to an instance of its own, with its index and its mends', () => {
  const other = native.fromJson(json());
  const before = used(other.instance);
  const map = native.readFound('\ufeff' + json({ names: ['f'], mappings: 'AAAAA' }));
  assert.equal(map.instance, other.instance);
  assert.equal(native.indexSources(map), 0);
  native.select(map);
  assert.equal(native.setText(map, 3, 'x'.repeat(1_000_000)), 0);
  assert.notEqual(map.instance, other.instance);
  assert.equal(native.trace(), 100);
  assert.deepEqual([native.generated(map, 0, 0, 0, 0), native.words[0]], [0, 0]);
  assert.deepEqual([native.getMends(map, new Uint32Array(6)), native.words[0]], [0, 1]);
  assert.equal(native.text(map, 3, 0).length, 1_000_000);
  const plain = native.fromJson(json());
  assert.equal(native.setTexts(plain, 2, Buffer.alloc(1_000_000, 'y'), Uint32Array.of(1_000_000)), 0);
  assert.equal(native.generated(plain, 0, 0, 0, 0), 104);
  assert.notEqual(plain.instance, other.instance);
  assert.equal(used(other.instance), before);
});

test('what is made of small maps is made where they are, of large ones elsewhere', () => {
  const [one, other, big] = [native.fromJson(json()), native.fromJson(json()), native.fromJson(large(500_000))];
  const made = (maps) => [native.compose(...maps), native.joinAll(maps, new Uint32Array(4)), native.remap(maps[0], Buffer.from('a.ts'), Uint32Array.of(4), [maps[1]])];
  for (const it of made([one, other])) assert.equal(it.instance, one.instance);
  for (const it of [...made([one, big]), native.clone(big)]) {
    assert.ok(it.instance !== one.instance && it.instance !== big.instance);
    assert.equal(typeof native.write(it, 0, ''), 'string');
  }
  assert.equal(native.firstDifference(big, native.clone(big)), 103);
  assert.equal(native.firstDifference(one, big), 0);
});

test('a thread compiles the module that another one has, and no map is shared', async () => {
  const map = native.fromJson(json());
  assert.equal(native.share(map), NO_THREADS);
  assert.equal(native.fault[0], NO_THREADS);
  assert.equal(native.takeShared(1), 103);
  const script = `const { parentPort, workerData } = require('node:worker_threads');
    const native = require(${JSON.stringify(LOADER)}).nativeOf(workerData.module);
    parentPort.postMessage(native.write(native.fromJson(workerData.text), 0, ''));`;
  const worker = new Worker(script, { eval: true, workerData: { module: module_, text: json() } });
  const [said] = await require('node:events').once(worker, 'message');
  assert.equal(said, native.write(map, 0, ''));
});

test('a map that moved is the same: ids out of range, equal names, no order, lists of other lengths', () => {
  const builder = native.builderNew();
  native.builderAddName(builder, 'f');
  native.builderAddSource(builder, 'a.ts', 'let');
  native.builderAddTokens(builder, Uint32Array.of(3, 0, 0, 0, 7, 9, 1, 5, 2, 2, 0, 0, 1, 1, 0, 0, 0xffffffff, 4));
  const odd = native.builderFinish(builder);
  native.setTexts(odd, 2, Buffer.from('xy'), Uint32Array.of(1, 0xffffffff, 1));
  native.setText(odd, 3, '');
  native.setIgnoreList(odd, NOTHING);
  const copy = native.clone(odd);
  assert.equal(native.firstDifference(odd, copy), 103);
  assert.deepEqual([native.getIgnoreList(copy, NOTHING), native.words[0], native.text(copy, 3, 0)], [0, 0, '']);
  assert.deepEqual(native.texts(copy, 2), ['x', null, 'y']);
  assert.deepEqual([native.getIgnoreList(native.clone(native.fromJson(json())), NOTHING), native.fault[0]], [103, 103]);
  const joined = native.joinAll([odd, native.fromJson(json({ names: ['g', 'g'], mappings: 'AAAAC' }))], Uint32Array.of(0, 0, 9, 0));
  const tokens = new Uint32Array(24);
  assert.equal(native.getTokens(joined, tokens), 0);
  assert.deepEqual([...tokens.subarray(0, 6)], [3, 0, 0, 0, 7, 9]);
  assert.deepEqual(native.texts(joined, 0), ['f', 'g', 'g']);
});

'use strict';
// Compiled maps. Each is one block of a memory: the library's own, and behind it a copy of the bytes (calls.c).

const { bytesOf, compiledOf, mapOf, word } = require('./arguments.js');
const { asks } = require('./asking.js');
const { COMPILED, Handle } = require('./handles.js');
const { ANSWER, Code, COUNTS } = require('./layout.js');
const { lending } = require('./lending.js');
const { asBytes, written } = require('./writing.js');

/** So many bytes of a block are before those of the map. */
const BEFORE = 16;
const STAMP = 32;

function compile(host, handle, low, high, stamp) {
  const map = mapOf(handle);
  const length = [word(low), word(high)];
  const given = bytesOf(stamp);
  if (map.isNull) return host.told(Code.NULL_HANDLE);
  if (given.length !== STAMP && given.length !== 0) return host.told(Code.LENGTHS);
  const { instance } = map;
  return host.orNoMemory(() =>
    lending(instance, (lend) => {
      const at = given.length === 0 ? 0 : lend.text(given)[0];
      return written(host, instance, instance.call('loader_compile', map.at, ...length, at), asBytes);
    }),
  );
}

/** The block of these bytes in an instance, with the code of opening it. One that is not opened is freed. */
function opened(instance, bytes) {
  const at = instance.room(BEFORE + bytes.length);
  instance.u8().set(bytes, at + BEFORE);
  const code = instance.call('loader_open_compiled', at, bytes.length);
  if (code !== 0) instance.call('free', at);
  return { at, code };
}

function openCompiled(host, bytes) {
  const given = bytesOf(bytes);
  return host.orNoMemory(() => {
    const instance = host.forText(given.length);
    const { at, code } = opened(instance, given);
    if (code === 0) return Object.assign(host.handles.hold(new Handle(COMPILED), COMPILED, instance, at), { length: given.length });
    host.coded(instance, code);
    if (!instance.isShared) host.instances.give(instance);
    return code;
  });
}

const asksCompiled = (host, handle, run) => asks(host, handle, run, compiledOf);

function compiledCounts(host, handle) {
  return asksCompiled(host, handle, (it, at) => {
    const code = it.call('loader_compiled_counts', at);
    it.copy(ANSWER.WORDS, host.words, COUNTS);
    return code;
  });
}

function stamp(host, handle) {
  const map = compiledOf(handle);
  if (map.isNull) return host.told(Code.NULL_HANDLE);
  const code = map.instance.call('loader_compiled_stamp', map.at);
  return code !== 0 ? host.told(code) : asBytes(map.instance);
}

function isIgnored(host, handle, id) {
  const which = word(id);
  return asksCompiled(host, handle, (it, at) => {
    const code = it.call('loader_compiled_is_ignored', at, which);
    it.copy(ANSWER.WORDS, host.words, 1);
    return code;
  });
}

/** A map goes to an instance of its own if it is large: to be made there, it takes a copy of the bytes for the while. */
function decompile(host, handle) {
  const map = compiledOf(handle);
  if (map.isNull) return host.told(Code.NULL_HANDLE);
  const { instance, at, length } = map;
  return host.makes(() => host.forText(length), (it) => {
    if (it === instance) return host.coded(it, it.call('loader_decompile', at));
    const copy = opened(it, instance.u8().subarray(at + BEFORE, at + BEFORE + length));
    const code = it.call('loader_decompile', copy.at);
    it.call('loader_free_compiled', copy.at);
    return host.coded(it, code);
  });
}

module.exports = { compile, openCompiled, compiledCounts, stamp, isIgnored, decompile };

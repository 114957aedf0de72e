'use strict';
// The functions of bindings/node/lib/native.d.ts over the WebAssembly module, in Node, browsers and wherever there is WebAssembly.
//
// Small maps share an instance of the module, so a memory: as many as go into 16 MiB; then another instance begins. One that is freed or
// collected leaves its place to others, and an instance goes with its last map. The collector takes one whose maps are all dropped also
// where no turn of the event loop comes, in which it could free them one by one. A trap ends the maps that share an instance together.
//
// A compiled map is opened in a copy of its bytes, which is as a map of such a text. Scopes are as a map of their text.
//
// Large maps, builders and joins have an instance of their own: the garbage collector frees its memory with the handle, and a trap ends it
// alone. `free` keeps a few small instances for the next ones. A map that a change makes large moves to one, and a small map that a
// builder has made moves from there. A call over several maps moves copies of them to one instance where they are not in one already.
// Where the host gives no more instances (a browser has room for a hundred or so), the shared ones hold all further maps.
//
// No view of a memory is given out. Those that an instance keeps are detached when its memory grows, and are made anew then.

const { Host } = require('./host.js');
const { TrapError } = require('./instance.js');
const { Code } = require('./layout.js');
const { tracing } = require('./tracing.js');

/** The calls by their names in native.d.ts. Each takes the host before its arguments. */
const CALLS = {
  ...require('./reading.js'),
  ...require('./sharing.js'),
  ...require('./inspecting.js'),
  ...require('./lookups.js'),
  ...require('./changing.js'),
  ...require('./making.js'),
  ...require('./building.js'),
  ...require('./writing.js').CALLS,
  ...require('./compiled.js'),
  ...require('./scopes.js'),
  ...require('./messages.js'),
};

/** The functions of native.d.ts over a compiled module. (Filled name by name, the object would be one that engines look names up in.) */
function nativeOf(module) {
  const host = new Host(module);
  const calls = Object.fromEntries(Object.entries(CALLS).map(([name, call]) => [name, call.bind(null, host)]));
  const version = host.withinShared((it) => it.call('smap_version'));
  return { version, backend: 'module', fault: host.fault, words: host.words, trace: tracing(host), ...calls };
}

module.exports = { nativeOf, TrapError, NO_THREADS: Code.NO_THREADS };

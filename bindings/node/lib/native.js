'use strict';
// What native.d.ts says: of the addon for this platform, or of the WebAssembly module where none loads, or of that which
// JUNKETSCARP_ADDON names.
//
// Bundlers follow the one literal `require`, to files of JavaScript which have the module in them, and run wherever they go. None takes in
// an addon: that is loaded from beside this file, if it is where it was.

const { platform, arch, env = {} } = typeof process === 'object' ? process : {};
const named = env.JUNKETSCARP_ADDON;

/** What a file has, by the `require` of Node. (Webpack takes the words of its own for that, and the other bundlers pass over this form.) */
function loaded(path) {
  const load = typeof __webpack_require__ === 'function' ? __non_webpack_require__ : require;
  return load(path);
}

const WAYS = named
  ? [() => loaded(named)]
  : [() => loaded(`../prebuilds/${platform}-${arch}/junketscarp.node`), () => require('../wasm/node.js')];

/** The first of these that loads. */
function load() {
  const causes = [];
  for (const way of WAYS) {
    try {
      return way();
    } catch (cause) {
      causes.push(cause);
    }
  }
  const messages = causes.map((it) => it.message).join('; ');
  throw new Error(`junketscarp has no addon and no module that loads on ${platform}-${arch}: ${messages}`, { cause: causes[0] });
}

module.exports = load();

'use strict';
// The one call that is made so often that its arguments are read from the words, and nothing is answered.

const { TrapError } = require('./instance.js');
const { ANSWER, Code, Slot } = require('./layout.js');

const { LINE, COLUMN, BIAS } = Slot;

/** Asks the map that is selected; the code of the call. */
function asked({ instance, at, isCompiled }, words) {
  if (instance.trap !== null) throw instance.trap;
  const { exports } = instance;
  try {
    if (isCompiled) return exports.loader_compiled_trace(at, words[LINE], words[COLUMN], words[BIAS]);
    return exports.loader_trace(at, words[LINE], words[COLUMN], words[BIAS]);
  } catch (cause) {
    throw (instance.trap = new TrapError(isCompiled ? 'loader_compiled_trace' : 'loader_trace', cause, instance.isShared));
  }
}

/** `trace` of a host. */
function tracing(host) {
  const { words, selection } = host;
  return function trace() {
    const map = selection.asked;
    if (map === null) return host.told(Code.NULL_HANDLE);
    const { instance } = map;
    const code = asked(map, words);
    if (code !== 0) return host.coded(instance, code);
    const from = instance.u32();
    const begin = (instance.answers + ANSWER.WORDS) >>> 2;
    words[0] = from[begin];
    words[1] = from[begin + 1];
    words[2] = from[begin + 2];
    words[3] = from[begin + 3];
    words[4] = from[begin + 4];
    words[5] = from[begin + 5];
    words[6] = from[begin + 6];
    words[7] = from[begin + 7];
  };
}

module.exports = { tracing };

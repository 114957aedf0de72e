'use strict';
// What is asked of one map: numbers, or a list of entries.

const { mapOf, wordsOf } = require('./arguments.js');
const { ANSWER, Code } = require('./layout.js');
const { lending } = require('./lending.js');

/** Asks of a map, or of another handle that `of` takes, what is answered to the words. */
function asks(host, handle, run, of = mapOf) {
  const map = of(handle);
  return host.told(map.isNull ? Code.NULL_HANDLE : run(map.instance, map.at));
}

/** A list of entries of so many words that a call fills in, as many as fit. */
function fills(host, { instance, at: map }, out, size, run) {
  const fits = Math.floor(out.length / size);
  return host.orNoMemory(() =>
    lending(instance, (lend) => {
      const at = fits === 0 ? 0 : lend.room(4 * size * fits);
      const code = run(instance, map, at, fits);
      const all = instance.answer(ANSWER.COUNT);
      if (code !== 0) return host.told(code);
      host.words[0] = all;
      out.set(instance.u32().subarray(at >>> 2, (at >>> 2) + size * Math.min(all, fits)));
      return code;
    }),
  );
}

/** The same for a map, or for another handle that `of` takes. */
function lists(host, handle, out, size, run, of = mapOf) {
  const map = of(handle);
  const to = wordsOf(out);
  return map.isNull ? host.told(Code.NULL_HANDLE) : fills(host, map, to, size, run);
}

module.exports = { asks, fills, lists };

'use strict';
// Lookups.

const { askedOf, isCompiled, mapOf, word, wordsOf } = require('./arguments.js');
const { asks, lists } = require('./asking.js');
const { ANSWER, Code, FOUND, Words } = require('./layout.js');
const { lending } = require('./lending.js');
const { gathering } = require('./moving.js');

/** Positions that are asked at once. */
const BLOCK = 4096;

function select(host, handle) {
  host.selection.select(askedOf(handle), isCompiled(handle));
}

/** Asks for blocks of positions; each answer is of so many words. The answers must not overwrite positions that are still asked. */
function looksUp(host, { instance, at: map }, positions, by, out, size, run) {
  const asks = positions.buffer === out.buffer ? positions.slice() : positions;
  const all = asks.length / 2;
  return host.orNoMemory(() =>
    lending(instance, (lend) => {
      const most = Math.min(all, BLOCK);
      const from = lend.room(8 * most);
      const to = lend.room(4 * size * most);
      let code = 0;
      let done = 0;
      do {
        const length = Math.min(all - done, BLOCK);
        instance.u32().set(asks.subarray(2 * done, 2 * (done + length)), from >>> 2);
        code = run(instance, map, from, length, by, to);
        if (code === 0) out.set(instance.u32().subarray(to >>> 2, (to >>> 2) + size * length), size * done);
        done += length;
      } while (code === 0 && done < all);
      return host.coded(instance, code);
    }),
  );
}

function lookups(host, handle, positions, bias, out, size, run) {
  const map = askedOf(handle);
  const asks = wordsOf(positions);
  const by = word(bias);
  const to = wordsOf(out);
  if (map.isNull) return host.told(Code.NULL_HANDLE);
  if (asks.length % 2 !== 0 || to.length !== (size * asks.length) / 2) return host.told(Code.LENGTHS);
  return looksUp(host, map, asks, by, to, size, run);
}

function traceAll(host, handle, positions, bias, out) {
  const name = isCompiled(handle) ? 'loader_compiled_trace_all' : 'loader_trace_all';
  const run = (it, map, at, len, by, to) => it.call(name, map, at, len, by, to);
  return lookups(host, handle, positions, bias, out, FOUND, run);
}

function findAll(host, handle, positions, bias, out) {
  const run = isCompiled(handle)
    ? (it, map, at, len, by, to) => it.call('loader_compiled_find_all', map, at, len, by, to)
    : (it, map, at, len, by, to) => it.call('smap_find_all', map, at, len, by, to, len, it.faultAt);
  return lookups(host, handle, positions, bias, out, 1, run);
}

function pieces(host, handle, line, column, endLine, endColumn, out) {
  const range = [word(line), word(column), word(endLine), word(endColumn)];
  return lists(host, handle, out, Words.PIECE, (it, map, at, len) => it.call('loader_pieces', map, ...range, at, len));
}

function firstDifference(host, handle, otherHandle) {
  const maps = [mapOf(handle), mapOf(otherHandle)];
  if (maps.some((it) => it.isNull)) return host.told(Code.NULL_HANDLE);
  return host.within(() => host.forMaps(maps), (it) =>
    gathering(it, maps, ([one, other]) => {
      const code = it.call('smap_first_difference', one, other, it.wordsAt);
      if (code === 0) it.copy(ANSWER.WORDS, host.words, 2);
      return host.told(code);
    }),
  );
}

function generated(host, handle, source, line, column, direction) {
  const place = [word(source), word(line), word(column), word(direction)];
  return asks(host, handle, (it, at) => {
    const index = it.wordsAt;
    const code = it.call('smap_generated', at, ...place, index, index + 4);
    if (code === 0) it.copy(ANSWER.WORDS, host.words, 7);
    return code;
  });
}

function allGenerated(host, handle, source, line, column, direction, out) {
  const place = [word(source), word(line), word(column), word(direction)];
  return lists(host, handle, out, 1, (it, map, at, len) => it.call('smap_all_generated', map, ...place, at, len, it.countAt));
}

module.exports = { select, traceAll, findAll, pieces, firstDifference, generated, allGenerated };

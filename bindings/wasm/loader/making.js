'use strict';
// Maps of maps.

const { mapOf, mapsOf, textsOf, wordsOf } = require('./arguments.js');
const { Code } = require('./layout.js');
const { gathering, pointers } = require('./moving.js');

/** The map that `run` makes of maps, from where they are in one instance. */
function makesOf(host, maps, run) {
  if (maps.some((it) => it.isNull)) return host.told(Code.NULL_HANDLE);
  return host.makes(() => host.forMaps(maps), (it, lend) =>
    gathering(it, maps, (all) => host.coded(it, run(it, all, lend))),
  );
}

function compose(host, handle, input) {
  const maps = [mapOf(handle), mapOf(input)];
  return makesOf(host, maps, (it, [outer, inner]) => it.call('smap_compose', outer, inner, it.madeAt, it.faultAt));
}

function remap(host, handle, paths, pathLengths, inputs) {
  const maps = mapsOf(inputs);
  const map = mapOf(handle);
  const list = textsOf(paths, pathLengths);
  return makesOf(host, [map, ...maps], (it, [outer, ...inner], lend) => {
    const given = [...lend.texts(list), lend.words(pointers(inner)), inner.length];
    return it.call('smap_remap', outer, ...given, it.madeAt, it.faultAt);
  });
}

function joinAll(host, list, positions) {
  const maps = mapsOf(list);
  const places = wordsOf(positions);
  if (places.length % 2 !== 0) return host.told(Code.LENGTHS);
  return makesOf(host, maps, (it, parts, lend) => {
    const given = [lend.words(pointers(parts)), parts.length, lend.words(places), places.length / 2];
    return it.call('smap_join_all', ...given, it.madeAt, it.faultAt);
  });
}

function evaluate(host, said, saidLengths, given, givenLengths) {
  const plan = textsOf(said, saidLengths);
  const all = textsOf(given, givenLengths);
  return host.makes(() => host.forText(all.bytes.length), (it, lend) => {
    const lists = [...lend.texts(plan), ...lend.texts(all)];
    return host.coded(it, it.call('smap_evaluate', ...lists, it.madeAt, it.faultAt));
  });
}

module.exports = { compose, remap, joinAll, evaluate };

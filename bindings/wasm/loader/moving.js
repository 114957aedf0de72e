'use strict';
// Maps that move, or are copied, from one instance to another.

const { NoMemory } = require('./instance.js');
const { ANSWER, BYTES } = require('./layout.js');

/** The bytes of a map. */
function sizeOf({ instance, at }) {
  instance.call('smap_get_counts', at, instance.answers);
  return instance.answer(BYTES) + instance.answer(BYTES + 4) * 2 ** 32;
}

/** A copy of a map in another instance, which the caller frees there. An index by original positions does not come with it. */
function moved(map, instance) {
  const packed = map.instance.call('loader_pack', map.at);
  if (packed === 0) throw new NoMemory();
  const length = map.instance.answer(ANSWER.COUNT);
  try {
    const { at } = instance.putBytes(map.instance.u8().subarray(packed, packed + length));
    const code = instance.call('loader_unpack', at);
    instance.call('free', at);
    if (code !== 0) throw new NoMemory();
  } finally {
    map.instance.call('free', packed);
  }
  return instance.answer(ANSWER.MADE);
}

/** Runs a call over copies of maps in one instance. A map that is there already is not copied, and one that is named twice once. */
function gathering(instance, maps, run) {
  const copies = new Map();
  try {
    for (const map of maps) if (map.instance !== instance && !copies.has(map)) copies.set(map, moved(map, instance));
    return run(maps.map((map) => copies.get(map) ?? map.at));
  } finally {
    if (instance.trap === null) for (const at of copies.values()) instance.call('smap_free_map', at);
  }
}

/** Addresses as the module's lists have them. */
const pointers = (list) => Uint32Array.from(list.flatMap((at) => [at, 0]));

module.exports = { sizeOf, moved, gathering, pointers };

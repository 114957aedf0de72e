'use strict';
// Reading maps, and freeing them.

const { mapOf, textOf, textsOf, word, wordsOf } = require('./arguments.js');
const { fills } = require('./asking.js');
const { Handle } = require('./handles.js');
const { ANSWER, Code, Words } = require('./layout.js');
const { lending } = require('./lending.js');
const { moved } = require('./moving.js');

function reads(host, text, run) {
  const instanceFor = () => host.forText(text.length);
  return host.makes(instanceFor, (it, lend) => host.coded(it, run(it, ...lend.text(text))));
}

function fromJson(host, json) {
  const text = textOf(json);
  return reads(host, text, (it, at, len) => it.call('smap_from_json_string', at, len, it.madeAt, it.faultAt));
}

/** There is no other thread. */
function readAsync(host, json) {
  const text = textOf(json);
  return new Promise((resolve) => {
    const map = fromJson(host, text);
    resolve(typeof map === 'number' ? host.fault.slice() : map);
  });
}

/** The words of mends, which are freed. */
function mendsIn(instance, mends) {
  try {
    return lending(instance, (lend) => {
      instance.call('smap_get_mends', mends, 0, 0, instance.countAt);
      const length = instance.answer(ANSWER.COUNT);
      const at = lend.room(4 * Words.MEND * length);
      instance.call('smap_get_mends', mends, at, length, instance.countAt);
      return instance.u32().slice(at >>> 2, (at >>> 2) + Words.MEND * length);
    });
  } finally {
    if (instance.trap === null) instance.call('smap_free_mends', mends);
  }
}

function readFound(host, found) {
  const text = textOf(found);
  return host.orNoMemory(() => {
    const map = reads(host, text, (it, at, len) =>
      it.call('smap_read_found', at, len, it.madeAt, it.answers + ANSWER.OTHER, it.faultAt),
    );
    if (typeof map !== 'number') map.mends = mendsIn(map.instance, map.instance.answer(ANSWER.OTHER));
    return map;
  });
}

function getMends(host, handle, out) {
  const map = mapOf(handle);
  const to = wordsOf(out);
  if (map.mends === null) return host.told(Code.NULL_HANDLE);
  to.set(map.mends.subarray(0, Words.MEND * Math.floor(to.length / Words.MEND)));
  host.words[0] = map.mends.length / Words.MEND;
  return 0;
}

function fromTokens(host, tokens, names, nameLengths, sources, sourceLengths, contents, contentLengths, ignoreList) {
  const all = wordsOf(tokens);
  const texts = [textsOf(names, nameLengths), textsOf(sources, sourceLengths), textsOf(contents, contentLengths)];
  const ignored = wordsOf(ignoreList);
  if (all.length % Words.TOKEN !== 0) return host.told(Code.LENGTHS);
  const bytes = all.byteLength + texts.reduce((sum, { bytes: { length }, lengths }) => sum + length + lengths.byteLength, 0);
  const instanceFor = () => host.forText(bytes);
  return host.makes(instanceFor, (it, lend) => {
    const lists = texts.flatMap((list) => lend.texts(list));
    const given = [lend.words(all), all.length / Words.TOKEN, ...lists, lend.words(ignored), ignored.length];
    return host.coded(it, it.call('smap_from_tokens', ...given, it.madeAt, it.faultAt));
  });
}

function decodeMappings(host, mappings, names, sources) {
  const text = textOf(mappings);
  const limits = [word(names), word(sources)];
  return reads(host, text, (it, at, len) => it.call('smap_decode_mappings', at, len, ...limits, it.madeAt, it.faultAt));
}

/** Of the map that a call has made in an instance the tokens, and whether they are sorted. The map is freed. */
function tokensIn(host, instance, to) {
  const map = { instance, at: instance.answer(ANSWER.MADE) };
  try {
    const code = fills(host, map, to, Words.TOKEN, (it, at, room, len) => it.call('smap_get_tokens', at, room, len, it.countAt));
    instance.call('smap_is_sorted', map.at, instance.wordsAt);
    host.words[1] = instance.answer(ANSWER.WORDS);
    return code;
  } finally {
    if (instance.trap === null) instance.call('smap_free_map', map.at);
  }
}

function decodeTokens(host, mappings, names, sources, out) {
  const text = textOf(mappings);
  const limits = [word(names), word(sources)];
  const to = wordsOf(out);
  return host.within(
    () => host.forText(text.length),
    (it) => {
      const decode = (lend) => it.call('smap_decode_mappings', ...lend.text(text), ...limits, it.madeAt, it.faultAt);
      const code = lending(it, decode);
      return code === 0 ? tokensIn(host, it, to) : host.coded(it, code);
    },
  );
}

function clone(host, handle) {
  const map = mapOf(handle);
  if (map.isNull) return host.told(Code.NULL_HANDLE);
  const instanceFor = () => host.forMaps([map]);
  return host.makes(instanceFor, (it) => {
    if (map.instance === it) return host.coded(it, it.call('smap_clone', map.at, it.madeAt, it.faultAt));
    moved(map, it);
    return 0;
  });
}

function free(host, handle) {
  const kind = Handle.kindOf(handle);
  if (kind === null) throw new TypeError('It is no handle');
  host.handles.empty(handle, kind);
  handle.isFreed = true;
}

module.exports = { fromJson, readAsync, readFound, getMends, fromTokens, decodeMappings, decodeTokens, clone, free };

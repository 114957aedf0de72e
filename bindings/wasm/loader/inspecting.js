'use strict';
// What a map holds.

const { askedOf, isCompiled, mapOf, word } = require('./arguments.js');
const { asks, lists } = require('./asking.js');
const { ANSWER, BYTES, Code, NOT_TOLD, Which, Words } = require('./layout.js');
const { lending } = require('./lending.js');

const ONE_TEXT = [
  'smap_get_name',
  'smap_get_source',
  'smap_get_source_content',
  'smap_get_file',
  'smap_get_source_root',
  'smap_get_debug_id',
];
const ALL_TEXTS = ['smap_get_names', 'smap_get_sources', 'smap_get_source_contents'];

function getCounts(host, handle) {
  const { words } = host;
  return asks(host, handle, (it, at) => {
    const code = it.call('smap_get_counts', at, it.answers);
    const from = it.u32();
    for (let i = 0; i < 6; i++) {
      const low = (it.answers >>> 2) + 2 * i;
      words[i] = from[low + 1] === 0 ? from[low] : NOT_TOLD;
    }
    it.copy(BYTES, words.subarray(6), 2);
    return code;
  });
}

function answersOne(host, handle, name) {
  return asks(host, handle, (it, at) => {
    const code = it.call(name, at, it.wordsAt);
    host.words[0] = it.answer(ANSWER.WORDS);
    return code;
  });
}

function isSorted(host, handle) {
  return answersOne(host, handle, 'smap_is_sorted');
}

function isSound(host, handle) {
  return answersOne(host, handle, 'smap_is_sound');
}

/** Bytes of a compiled map may be no UTF-8. */
function compiledText(host, map, which, id) {
  if (map.isNull) return host.told(Code.NULL_HANDLE);
  const { instance } = map;
  const code = instance.call('loader_compiled_text', map.at, which, id);
  return code !== 0 ? host.told(code) : instance.anyLentText();
}

function text(host, handle, which, id) {
  if (isCompiled(handle)) return compiledText(host, handle, word(which), word(id));
  const map = mapOf(handle);
  const kind = word(which);
  const name = ONE_TEXT[kind];
  const ids = [word(id)].slice(0, kind < Which.FILE ? 1 : 0);
  if (name === undefined) return host.told(Code.BAD_OPTION);
  if (map.isNull) return host.told(Code.NULL_HANDLE);
  const { instance } = map;
  const code = instance.call(name, map.at, ...ids, instance.textAt);
  return code !== 0 ? host.told(code) : instance.lentText();
}

/** An entry of a list of texts. */
function listed(instance, at) {
  const from = instance.u32();
  return from[at] === 0 ? null : instance.text(from[at], from[at + 2]);
}

function texts(host, handle, which) {
  const map = mapOf(handle);
  const name = ALL_TEXTS[word(which)];
  if (name === undefined) return host.told(Code.BAD_OPTION);
  if (map.isNull) return host.told(Code.NULL_HANDLE);
  const { instance } = map;
  return host.orNoMemory(() =>
    lending(instance, (lend) => {
      instance.call(name, map.at, 0, 0, instance.countAt);
      const length = instance.answer(ANSWER.COUNT);
      const at = lend.room(16 * length);
      instance.call(name, map.at, at, length, instance.countAt);
      return Array.from({ length }, (_, i) => listed(instance, (at >>> 2) + 4 * i));
    }),
  );
}

function getToken(host, handle, index) {
  const which = word(index);
  const run = (it, at) => {
    const code = isCompiled(handle)
      ? it.call('loader_compiled_token', at, which)
      : it.call('smap_get_token', at, which, it.wordsAt);
    if (code === 0) it.copy(ANSWER.WORDS, host.words, Words.TOKEN);
    return code;
  };
  return asks(host, handle, run, askedOf);
}

function getTokens(host, handle, out) {
  return lists(host, handle, out, Words.TOKEN, (it, map, at, len) => it.call('smap_get_tokens', map, at, len, it.countAt));
}

function getIgnoreList(host, handle, out) {
  return lists(host, handle, out, 1, (it, map, at, len) => it.call('smap_get_ignore_list', map, at, len, it.countAt));
}

module.exports = { getCounts, isSorted, isSound, text, texts, getToken, getTokens, getIgnoreList };

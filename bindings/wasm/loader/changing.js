'use strict';
// Changing a map.

const { mapOf, textOf, textsOf, word, wordsOf } = require('./arguments.js');
const { SMALL_MAP } = require('./host.js');
const { Code, Which } = require('./layout.js');
const { lending } = require('./lending.js');

const SETS_ONE = { [Which.FILE]: 'smap_set_file', [Which.SOURCE_ROOT]: 'smap_set_source_root', [Which.DEBUG_ID]: 'smap_set_debug_id' };
const SETS_ALL = { [Which.SOURCE]: 'smap_set_sources', [Which.CONTENT]: 'smap_set_source_contents' };

/** Moves a map that is to become large to an instance of its own, where the host gives one. */
function leaves(host, map, bytes) {
  const to = host.instances.own(bytes);
  if (!to.isShared) host.handles.move(map, to);
}

/** Changes a map by what `run` calls, with so many bytes. */
function changes(host, handle, run, bytes = 0) {
  const map = mapOf(handle);
  if (map.isNull) return host.told(Code.NULL_HANDLE);
  return host.orNoMemory(() => {
    if (bytes > SMALL_MAP && map.instance.isShared) leaves(host, map, bytes);
    const { instance, at } = map;
    return lending(instance, (lend) => host.coded(instance, run(instance, at, lend, instance.faultAt)));
  });
}

function setText(host, handle, which, given) {
  const name = SETS_ONE[word(which)];
  const it = textOf(given);
  const map = mapOf(handle);
  if (name === undefined) return host.told(map.isNull ? Code.NULL_HANDLE : Code.BAD_OPTION);
  return changes(host, map, (instance, at, lend, to) => instance.call(name, at, ...lend.text(it), to), it.length);
}

function setTexts(host, handle, which, bytes, lengths) {
  const name = SETS_ALL[word(which)];
  const all = textsOf(bytes, lengths);
  const map = mapOf(handle);
  if (name === undefined) return host.told(map.isNull ? Code.NULL_HANDLE : Code.BAD_OPTION);
  return changes(host, map, (instance, at, lend, to) => instance.call(name, at, ...lend.texts(all), to), bytes.length);
}

function setIgnoreList(host, handle, ids) {
  const all = wordsOf(ids);
  const run = (it, at, lend, to) => it.call('smap_set_ignore_list', at, lend.words(all), all.length, to);
  return changes(host, handle, run, all.byteLength);
}

const changesBy = (name) => (host, handle) => changes(host, handle, (it, at, _, to) => it.call(name, at, to));

module.exports = {
  setText,
  setTexts,
  setIgnoreList,
  indexSources: changesBy('smap_index_sources'),
  applySourceRoot: changesBy('smap_apply_source_root'),
  sort: changesBy('smap_sort'),
  simplify: changesBy('smap_simplify'),
};

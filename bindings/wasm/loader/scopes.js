'use strict';
// The scopes of maps.

const { scopesOf, textOf, word } = require('./arguments.js');
const { asks, lists } = require('./asking.js');
const { SCOPES } = require('./handles.js');
const { ANSWER, SCOPES_COUNTS, Words } = require('./layout.js');

/** Scopes that a call makes of a text. */
function reads(host, text, name, ...more) {
  const instanceFor = () => host.forText(text.length);
  const run = (it, lend) => host.coded(it, it.call(name, ...lend.text(text), ...more, it.madeAt, it.faultAt));
  return host.makes(instanceFor, run, SCOPES);
}

function readScopes(host, json) {
  return reads(host, textOf(json), 'smap_read_scopes');
}

function decodeScopes(host, text, names) {
  return reads(host, textOf(text), 'smap_decode_scopes', word(names));
}

/** Asks by some numbers for so many words. */
const asksWords = (name, numbers, count) => (host, handle, ...given) => {
  const asked = Array.from({ length: numbers }, (_, i) => word(given[i]));
  const run = (it, at) => {
    const code = it.call(name, at, ...asked, it.wordsAt);
    if (code === 0) it.copy(ANSWER.WORDS, host.words, count);
    return code;
  };
  return asks(host, handle, run, scopesOf);
};

function framesAt(host, handle, line, column, out) {
  const place = [word(line), word(column)];
  const run = (it, at, frames, length) => {
    const code = it.call('smap_frames_at', at, ...place, frames, length, it.countAt, it.wordsAt);
    host.words[1] = it.answer(ANSWER.WORDS);
    return code;
  };
  return lists(host, handle, out, Words.FRAME, run, scopesOf);
}

/** Lists of so many words an entry, by some numbers. */
const listsBy = (name, numbers, size) => (host, handle, ...given) => {
  const asked = Array.from({ length: numbers }, (_, i) => word(given[i]));
  const run = (it, at, out, length) => it.call(name, at, ...asked, out, length, it.countAt);
  return lists(host, handle, given[numbers], size, run, scopesOf);
};

module.exports = {
  readScopes,
  decodeScopes,
  scopesCounts: asksWords('smap_scopes_get_counts', 0, SCOPES_COUNTS),
  getScope: asksWords('smap_get_scope', 1, Words.SCOPE),
  getRange: asksWords('smap_get_range', 1, Words.RANGE),
  scopeAt: asksWords('smap_scope_at', 3, 1),
  functionAt: asksWords('smap_function_at', 3, 1),
  rangeAt: asksWords('smap_range_at', 2, 1),
  framesAt,
  getVariables: listsBy('smap_get_variables', 1, 1),
  valueAt: asksWords('smap_value_at', 4, 1),
  scopeChainAt: listsBy('smap_scope_chain_at', 2, Words.CHAIN_ENTRY),
  scopeChain: listsBy('smap_scope_chain', 3, Words.CHAIN_ENTRY),
};

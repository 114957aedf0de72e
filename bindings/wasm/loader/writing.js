'use strict';
// Texts of maps and of codes.

const { mapOf, textOf, word, wordsOf } = require('./arguments.js');
const { ANSWER, Code, Form, Words } = require('./layout.js');
const { lending } = require('./lending.js');

const WRITES = ['smap_to_json_string', 'smap_to_data_url', 'smap_get_mappings', 'smap_visualize', 'smap_visualizer_url'];

/** What `take` makes of the text that a call has written. */
function written(host, instance, code, take) {
  if (code !== 0) return host.coded(instance, code);
  const string = instance.answer(ANSWER.MADE);
  instance.call('smap_get_text', string, instance.textAt);
  try {
    return take(instance);
  } finally {
    instance.call('smap_free_string', string);
  }
}

const asString = (it) => it.lentText();
const asBytes = (it) => {
  const at = it.answer(ANSWER.TEXT);
  return it.u8().slice(at, at + it.answer(ANSWER.TEXT + 8));
};

const writes = (take) => (host, handle, form, code, limit) => {
  const map = mapOf(handle);
  const kind = word(form);
  const name = WRITES[kind];
  const given = kind >= Form.DRAWING ? textOf(code) : null;
  const within = given === null && limit !== undefined ? [word(limit)] : [];
  if (name === undefined) return host.told(Code.BAD_OPTION);
  if (map.isNull) return host.told(Code.NULL_HANDLE);
  const { instance } = map;
  return host.orNoMemory(() =>
    lending(instance, (lend) => {
      const beside = given === null ? [] : lend.text(given);
      const called = within.length > 0 ? `${name}_within` : name;
      const answer = instance.call(called, map.at, ...within, ...beside, instance.madeAt, instance.faultAt);
      return written(host, instance, answer, take);
    }),
  );
};

function encodeMappings(host, tokens, limit) {
  const all = wordsOf(tokens);
  const [called, most] = limit === undefined ? ['smap_encode_mappings', []] : ['smap_encode_mappings_within', [word(limit)]];
  if (all.length % Words.TOKEN !== 0) return host.told(Code.LENGTHS);
  return host.within(() => host.forText(all.byteLength), (it) =>
    lending(it, (lend) => {
      const code = it.call(called, lend.words(all), all.length / Words.TOKEN, ...most, it.madeAt, it.faultAt);
      return written(host, it, code, asString);
    }),
  );
}

function sourceMappingURL(host, code, language) {
  const given = textOf(code);
  const which = word(language);
  return host.within(() => host.forText(given.length), (it) =>
    lending(it, (lend) => {
      const answer = it.call('smap_source_mapping_url', ...lend.text(given), which, it.textAt, it.faultAt);
      if (answer === Code.NO_ENTRY) return host.told(answer);
      return answer !== 0 ? host.coded(it, answer) : it.lentText();
    }),
  );
}

function decodeDataURL(host, url) {
  const given = textOf(url);
  return host.within(() => host.forText(given.length), (it) =>
    lending(it, (lend) => {
      const answer = it.call('smap_decode_data_url', ...lend.text(given), it.madeAt, it.faultAt);
      return answer === Code.NO_ENTRY ? host.told(answer) : written(host, it, answer, asString);
    }),
  );
}

const CALLS = { write: writes(asString), writeBytes: writes(asBytes), encodeMappings, sourceMappingURL, decodeDataURL };

module.exports = { CALLS, written, asBytes };

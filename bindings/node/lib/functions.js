'use strict';
// Calls over texts alone.

const native = require('./native.js');
const { NO_ID, Language } = require('./constants.js');
const { madeOrNull } = require('./errors.js');
const { text, word, option, limitOf, tokens, texts } = require('./arguments.js');
const { decodedShort, encoded, isDecoded, readDecoded, toText } = require('./decoded.js');
const { SourceMap, mapOf } = require('./map.js');

function evaluate(words, given) {
  const said = texts(typeof words === 'string' ? words.split(/\s+/).filter(Boolean) : words, 'words');
  const { bytes, lengths } = texts(given, 'texts');
  return mapOf(native.evaluate(said.bytes, said.lengths, bytes, lengths));
}

function encodeMappings(all, options) {
  if (isDecoded(all)) return toText(readDecoded(all), all.length, limitOf(options));
  return encoded(tokens(all), limitOf(options));
}

function decodeMappings(mappings, limits = {}) {
  const { names = NO_ID, sources = NO_ID } = limits;
  const tokens = decodedShort(mappings, word(sources, 'sources'), word(names, 'names'));
  if (tokens !== null) return tokens;
  const map = SourceMap.fromMappings(mappings, limits);
  try {
    return map.tokens();
  } finally {
    map.free();
  }
}

function sourceMappingURL(code, language = Language.JAVASCRIPT) {
  return madeOrNull(native.sourceMappingURL(text(code, 'The code'), option(language, 'The language', 'Language')));
}

function decodeDataURL(url) {
  return madeOrNull(native.decodeDataURL(text(url, 'The URL')));
}

module.exports = { evaluate, encodeMappings, decodeMappings, sourceMappingURL, decodeDataURL };

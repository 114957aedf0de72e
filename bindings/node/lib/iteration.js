'use strict';
// Tokens as objects: with their ids, and as mappings with texts.

const { NO_ID } = require('./constants.js');
const { idOf } = require('./arguments.js');

const WORDS = 6;

/** The token of this index, whose words stand from `at` on. */
function tokenAt(words, at, index) {
  return {
    generatedLine: words[at],
    generatedColumn: words[at + 1],
    originalLine: words[at + 2],
    originalColumn: words[at + 3],
    sourceId: idOf(words[at + 4]),
    nameId: idOf(words[at + 5]),
    index,
  };
}

/** The mapping of the token at an index. An id that is out of range is none. */
function mappingAt(tokens, index, sources, names) {
  const at = WORDS * index;
  const source = sources[tokens[at + 4]] ?? null;
  const isMapped = source !== null;
  return {
    generatedLine: tokens[at],
    generatedColumn: tokens[at + 1],
    source,
    originalLine: isMapped ? tokens[at + 2] : null,
    originalColumn: isMapped ? tokens[at + 3] : null,
    name: isMapped && tokens[at + 5] !== NO_ID ? (names[tokens[at + 5]] ?? null) : null,
    index,
  };
}

function* mappingsOf(tokens, sources, names) {
  for (let index = 0; WORDS * index < tokens.length; index++) yield mappingAt(tokens, index, sources, names);
}

module.exports = { tokenAt, mappingAt, mappingsOf };

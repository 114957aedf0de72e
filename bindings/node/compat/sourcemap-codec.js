'use strict';
// The API of @jridgewell/sourcemap-codec 1.4: mappings as a text, and decoded. What is no mappings is refused: a text with a fault by
// a SourceMapError, a segment with a number that is none by a RangeError or a TypeError.

const { readText, decodedLines, readDecoded, toDecoded, toText } = require('./mappings.js');

/** The lines of a mappings text, each a list of segments, sorted by column. */
function decode(mappings) {
  const short = decodedLines(mappings);
  if (short !== null) return short;
  const { tokens, lines } = readText(mappings);
  return toDecoded(tokens, lines);
}

/** The mappings text of lines of segments, as they stand. */
function encode(decoded) {
  return toText(readDecoded(decoded), decoded.length);
}

module.exports = { decode, encode };
Object.defineProperty(module.exports, '__esModule', { value: true });

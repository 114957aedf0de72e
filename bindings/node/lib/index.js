'use strict';

const { NO_ID, Bias, Direction, Language } = require('./constants.js');
const { SourceMapError } = require('./errors.js');
const { SourceMap } = require('./map.js');
const { CompiledMap } = require('./compiled.js');
const { Scopes } = require('./scopes.js');
const { SourceMapBuilder, ConcatSourceMapBuilder } = require('./builders.js');
const { evaluate, encodeMappings, decodeMappings, sourceMappingURL, decodeDataURL } = require('./functions.js');

module.exports = {
  NO_ID,
  Bias,
  Direction,
  Language,
  SourceMap,
  CompiledMap,
  Scopes,
  SourceMapBuilder,
  ConcatSourceMapBuilder,
  SourceMapError,
  evaluate,
  encodeMappings,
  decodeMappings,
  sourceMappingURL,
  decodeDataURL,
};
// For those who import the package as a whole. It is not one of the names.
Object.defineProperty(module.exports, 'default', { value: module.exports });

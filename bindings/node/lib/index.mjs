import library from './index.js';

export const {
  NO_ID,
  Bias,
  Direction,
  Language,
  SourceMap,
  CompiledMap,
  Scopes,
  SourceMapBuilder,
  ConcatSourceMapBuilder,
  SourceMapError,
  evaluate,
  encodeMappings,
  decodeMappings,
  sourceMappingURL,
  decodeDataURL,
} = library;

export default library;

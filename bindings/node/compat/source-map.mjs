import library from './source-map.js';

export const { SourceMapGenerator, SourceMapConsumer, SourceNode } = library;
export default library;

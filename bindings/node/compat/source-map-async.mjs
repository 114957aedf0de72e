import library from './source-map-async.js';

export const { SourceMapGenerator, SourceMapConsumer, SourceNode } = library;
export default library;

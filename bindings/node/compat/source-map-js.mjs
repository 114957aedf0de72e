export { SourceMapGenerator, SourceMapConsumer, SourceNode, default } from './source-map.mjs';

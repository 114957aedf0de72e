import api from './jridgewell-source-map.js';

export const { SourceMapConsumer, SourceMapGenerator } = api;

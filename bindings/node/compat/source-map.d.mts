import * as library from './source-map.js';

export * from './source-map.js';
export default library;

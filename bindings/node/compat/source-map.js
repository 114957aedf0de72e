'use strict';
// The package source-map 0.6, synchronous, over this library.

const { SourceMapConsumer } = require('./source-map/source-map-consumer.js');
const { SourceMapGenerator } = require('./source-map/source-map-generator.js');
const { SourceNode } = require('./source-map/source-node.js');

module.exports = { SourceMapGenerator, SourceMapConsumer, SourceNode };

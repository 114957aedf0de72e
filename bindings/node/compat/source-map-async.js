'use strict';
// The package source-map 0.7: as version 0.6, but that consumers come as promises, and are destroyed.

const consumers = require('./source-map/source-map-consumer.js');
const { SourceMapGenerator } = require('./source-map/source-map-generator.js');
const { SourceNode } = require('./source-map/source-node.js');

/** The promise of a consumer. One that is given is the consumer itself. */
function SourceMapConsumer(sourceMap, sourceMapURL) {
  if (sourceMap instanceof SourceMapConsumer) return Promise.resolve(sourceMap);
  return promised(() => new consumers.SourceMapConsumer(sourceMap, sourceMapURL));
}

async function promised(make) {
  return make();
}

// What is promised is a consumer by `instanceof`.
SourceMapConsumer.prototype = consumers.SourceMapConsumer.prototype;

const { GENERATED_ORDER, ORIGINAL_ORDER, GREATEST_LOWER_BOUND, LEAST_UPPER_BOUND } = consumers.SourceMapConsumer;
Object.assign(SourceMapConsumer, { GENERATED_ORDER, ORIGINAL_ORDER, GREATEST_LOWER_BOUND, LEAST_UPPER_BOUND });

/** There is nothing to make ready. */
SourceMapConsumer.initialize = function () {};

SourceMapConsumer.fromSourceMap = function (generator, sourceMapURL) {
  return promised(() => consumers.SourceMapConsumer.fromSourceMap(generator, sourceMapURL));
};

/** What a function makes of a consumer, which is destroyed when it has ended. */
SourceMapConsumer.with = async function (sourceMap, sourceMapURL, use) {
  const consumer = await new SourceMapConsumer(sourceMap, sourceMapURL);
  try {
    return await use(consumer);
  } finally {
    consumer.destroy();
  }
};

module.exports = { SourceMapGenerator, SourceMapConsumer, SourceNode };

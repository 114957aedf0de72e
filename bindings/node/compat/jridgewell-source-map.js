'use strict';
// The API of @jridgewell/source-map 0.3: the classes of source-map over trace-mapping and gen-mapping.

const gen = require('./gen-mapping.js');
const tracing = require('./trace-mapping.js');

class SourceMapConsumer {
  constructor(map, mapUrl) {
    this._map = tracing.AnyMap(map, mapUrl);
    const { version, file, names, sourceRoot, resolvedSources, sourcesContent } = this._map;
    Object.assign(this, { version, file, names, sourceRoot, sources: resolvedSources, sourcesContent });
  }

  static fromSourceMap(generator, mapUrl) {
    return new SourceMapConsumer(generator instanceof SourceMapConsumer ? generator._map : generator.toDecodedMap(), mapUrl);
  }

  get mappings() {
    return tracing.encodedMappings(this._map);
  }

  originalPositionFor(needle) {
    return tracing.originalPositionFor(this._map, needle);
  }

  generatedPositionFor(needle) {
    return tracing.generatedPositionFor(this._map, needle);
  }

  allGeneratedPositionsFor(needle) {
    return tracing.allGeneratedPositionsFor(this._map, needle);
  }

  hasContentsOfAllSources() {
    const { sources, sourcesContent } = this;
    return Boolean(sourcesContent) && sourcesContent.length >= sources.length && sourcesContent.every((it) => it != null);
  }

  sourceContentFor(source, nullOnMissing) {
    const { sources, resolvedSources } = this._map;
    if (sources.includes(source) || resolvedSources.includes(source)) return tracing.sourceContentFor(this._map, source);
    if (nullOnMissing) return null;
    throw new Error(`"${source}" is not in the SourceMap.`);
  }

  eachMapping(callback, context) {
    tracing.eachMapping(this._map, context ? callback.bind(context) : callback);
  }

  destroy() {}
}

class SourceMapGenerator {
  constructor(options) {
    this._map = options instanceof gen.GenMapping ? options : new gen.GenMapping(options);
  }

  static fromSourceMap(consumer) {
    return new SourceMapGenerator(gen.fromMap(consumer instanceof SourceMapConsumer ? consumer._map : consumer));
  }

  addMapping(mapping) {
    return gen.maybeAddMapping(this._map, mapping);
  }

  setSourceContent(source, content) {
    return gen.setSourceContent(this._map, source, content);
  }

  toJSON() {
    return gen.toEncodedMap(this._map);
  }

  toString() {
    return JSON.stringify(this.toJSON());
  }

  toDecodedMap() {
    return gen.toDecodedMap(this._map);
  }
}

module.exports = { SourceMapConsumer, SourceMapGenerator };
Object.defineProperty(module.exports, '__esModule', { value: true });

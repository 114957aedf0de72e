'use strict';
// The tree of maps that a remapping follows: each source of a map is a map again, or a leaf, which is an original source.

const { TraceMap } = require('./trace-map.js');

/** A map, with what each of its sources is. */
function branch(map, children) {
  return { map, children, source: '', content: null, isIgnored: false };
}

function leaf(source, content, isIgnored) {
  return { map: null, children: [], source, content, isIgnored };
}

/**
 * The tree of a map, or of several, of which each is the map of the one source of the map before. The loader says for each source of
 * the last one, and of the maps that it gives, whether there is a map.
 */
function buildTree(input, loader) {
  const maps = (Array.isArray(input) ? input : [input]).map((map) => new TraceMap(map, ''));
  const last = maps.pop();
  maps.forEach(({ sources }, i) => {
    if (sources.length > 1) throw new Error(severalSources(i));
  });
  const tree = withSources(last, loader, '', 1);
  return maps.reduceRight((below, map) => branch(map, [below]), tree);
}

function severalSources(index) {
  return (
    `Transformation map ${index} must have exactly one source file.\n` +
    'Did you specify these with the most recent transformation maps first?'
  );
}

/** A map with what the loader says of its sources. */
function withSources(map, loader, importer, depth) {
  return branch(
    map,
    map.resolvedSources.map((source, i) => loaded(map, i, loader, { importer, depth, source, content: undefined })),
  );
}

/** What the loader says of one source. The context may have been given another source, content or mark by then. */
function loaded(map, id, loader, context) {
  const found = loader(context.source, context);
  const { source, content, ignore, depth } = context;
  if (found) return withSources(new TraceMap(found, source), loader, source, depth + 1);
  const own = map.sourcesContent?.[id] ?? null;
  return leaf(source, content === undefined ? own : content, ignore ?? map.ignoreList?.includes(id) ?? false);
}

module.exports = { buildTree };

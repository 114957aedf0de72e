'use strict';
// The API of @ampproject/remapping 2.2: a map whose sources have maps becomes one from its code to the original sources.
//
// By default the map is that of the package, text by text. So it has two flaws of that one: a mapping of a place for which the map of
// its source has nothing is dropped, so that its code counts to what stands before it, which may be another module; and of mappings in
// a row that lead to the same place all but the first are dropped, and with them a name that only a later one has. The option `exact`
// gives the map that the library makes (SourceMap.remap), which has neither.

const { SourceMap: LibraryMap } = require('../lib/index.js');
const { buildTree } = require('./source-tree.js');
const { tokensOf } = require('./trace-map.js');
const { traced } = require('./remapping-trace.js');
const { toDecoded, toText } = require('./mappings.js');

/** A map as its JSON text has it. */
class SourceMap {
  constructor({ file, tokens, names, sources, sourcesContent, ignoreList }, { decodedMappings, excludeContent }) {
    this.version = 3;
    this.file = file || undefined;
    this.mappings = decodedMappings ? toDecoded(tokens, lineCount(tokens)) : toText(tokens, 0);
    this.names = names;
    if (ignoreList.length > 0) this.ignoreList = ignoreList;
    this.sourceRoot = undefined;
    this.sources = sources;
    if (!excludeContent) this.sourcesContent = sourcesContent;
  }

  toString() {
    return JSON.stringify(this);
  }
}

/** The number of lines up to the last token. */
function lineCount(tokens) {
  return tokens.length === 0 ? 0 : tokens[tokens.length - 6] + 1;
}

function remapping(input, loader, options) {
  const chosen = typeof options === 'object' && options !== null ? options : { excludeContent: Boolean(options) };
  const tree = buildTree(input, loader);
  return new SourceMap(chosen.exact ? exact(tree) : traced(tree), chosen);
}

// ---- the map of the library ----

function exact(tree) {
  const map = exactMap(tree);
  try {
    const { names, sources, sourcesContent, file, ignoreList } = map;
    return {
      file,
      tokens: map.tokens(),
      names: [...names],
      sources: [...sources],
      sourcesContent: sources.map((_, i) => sourcesContent[i] ?? null),
      ignoreList: ignoreList ?? [],
    };
  } finally {
    map.free();
  }
}

/** The map of a tree. A source that is a map has a path that no leaf has, as long as it is needed. */
function exactMap({ map, children }) {
  const paths = children.map((child, i) => (child.map === null ? child.source : `\0${i}`));
  const whole = LibraryMap.fromTokens(tokensOf(map), {
    names: map.names,
    sources: paths,
    sourcesContent: children.map(({ content }) => content),
    ignoreList: children.flatMap(({ isIgnored }, i) => (isIgnored ? [i] : [])),
    file: map.file || undefined,
  });
  const inputs = children.flatMap((child, i) => (child.map === null ? [] : [[paths[i], exactMap(child)]]));
  if (inputs.length === 0) return whole;
  try {
    return whole.remap(inputs);
  } finally {
    for (const it of [whole, ...inputs.map(([, input]) => input)]) it.free();
  }
}

module.exports = remapping;
module.exports.default = remapping;

'use strict';
// Remapping as @ampproject/remapping does it: token by token, down the tree of maps.

const mappings = require('./mappings.js');
const { Texts } = require('./texts.js');
const { tokensOf, startsOf } = require('./trace-map.js');
const { WORDS, NO_ID } = mappings;

// Where a trace may end but in a leaf.
const NOWHERE = null;
const UNMAPPED = undefined;

// In place of ids, that fit into small integers: the first becomes NO_ID in an array of words.
const NONE = -1;
const NOT_YET = -2;

/** How far it is looked behind the token that answered before, in words. */
const NEAR = 8 * WORDS;

/** What the trace of a token passes on from map to map. */
class Place {
  constructor() {
    this.line = 0;
    this.column = 0;
    this.nodeOfName = null;
    this.name = NONE;
  }

  /** Moves to where a token of a map points. */
  follow(node, tokens, at) {
    this.line = tokens[at + 2];
    this.column = tokens[at + 3];
    if (tokens[at + 5] === NO_ID) return;
    this.nodeOfName = node;
    this.name = tokens[at + 5];
  }
}

/** A node of a tree with what tracing needs of its map, which is read when it is needed first. */
class Node {
  constructor({ map, children, source, content, isIgnored }) {
    this.children = children.map((child) => new Node(child));
    this.source = source;
    this.content = content;
    this.isIgnored = isIgnored;
    this.id = NOT_YET;
    this.isLeaf = map === null;
    this.map = map;
    this.tokens = null;
    this.starts = null;
    this.nameIds = null;
    this.last = 0;
  }

  /** Reads the tokens of the map. */
  read() {
    this.tokens = tokensOf(this.map);
    this.nameIds = new Int32Array(this.map.names?.length ?? 0).fill(NOT_YET);
    return this.tokens;
  }

  /** Makes lookups possible. */
  open() {
    this.read();
    this.starts = startsOf(this.map);
  }

  /** The token that answers for a place of the code, by its index of words, or -1. Places that follow each other are often near. */
  find(line, column) {
    if (this.starts === null) this.open();
    if (line >= this.starts.length - 1) return -1;
    const near = this.findNear(line, column);
    if (near >= 0) return near;
    const found = WORDS * mappings.findBefore(this.tokens, this.starts, line, column);
    if (found >= 0) this.last = found;
    return found;
  }

  /** The same among the tokens behind the one that answered last; -1 if it is not there. */
  findNear(line, column) {
    const { tokens } = this;
    let at = this.last;
    if (tokens[at] !== line || tokens[at + 1] >= column) return -1;
    const end = Math.min(at + NEAR, tokens.length - WORDS);
    while (at < end) {
      const next = at + WORDS;
      if (tokens[next] !== line || tokens[next + 1] > column) return (this.last = at);
      if (tokens[next + 1] === column) return (this.last = next);
      at = next;
    }
    return -1;
  }
}

/** The leaf in which the trace of a place ends, or UNMAPPED, or NOWHERE if a map has nothing for it. */
function leafOf(start, place) {
  let node = start;
  while (!node.isLeaf) {
    const at = node.find(place.line, place.column);
    if (at < 0) return NOWHERE;
    const { tokens } = node;
    if (tokens[at + 4] === NO_ID) return UNMAPPED;
    place.follow(node, tokens, at);
    node = node.children[tokens[at + 4]];
  }
  return node;
}

/** The map that is made. */
class Output {
  constructor(size) {
    this.tokens = new Uint32Array(size);
    this.length = 0;
    this.names = new Texts();
    this.sources = new Texts();
    this.contents = [];
    this.ignored = new Set();
    this.lastLeaf = null;
    this.startLine();
  }

  /** A line begins as after a mapping without a source. */
  startLine() {
    this.lastSource = NONE;
    this.lastLine = NONE;
    this.lastColumn = NONE;
  }

  /** Whether a place is that of the mapping before. If not, it is the one that the next mapping is compared with. */
  isRepeat(source, line, column) {
    if (this.lastSource === source && this.lastLine === line && this.lastColumn === column) return true;
    this.lastSource = source;
    this.lastLine = line;
    this.lastColumn = column;
    return false;
  }

  add(line, column, originalLine, originalColumn, source, name) {
    const { tokens, length } = this;
    tokens[length] = line;
    tokens[length + 1] = column;
    tokens[length + 2] = originalLine;
    tokens[length + 3] = originalColumn;
    tokens[length + 4] = source;
    tokens[length + 5] = name;
    this.length = length + WORDS;
  }

  addUnmapped(line, column) {
    if (!this.isRepeat(NONE, NONE, NONE)) this.add(line, column, 0, 0, NONE, NONE);
  }

  /** Adds a mapping to a leaf. One to a source without a path becomes one without a source. */
  addOriginal(line, column, leaf, place) {
    if (leaf.id === NOT_YET && leaf.source) leaf.id = this.sources.put(leaf.source);
    if (this.isRepeat(leaf.id, place.line, place.column)) return;
    if (leaf.id === NOT_YET) this.add(line, column, 0, 0, NONE, NONE);
    else this.add(line, column, place.line, place.column, leaf.id, this.nameOf(place));
    if (leaf !== this.lastLeaf) this.useLeaf(leaf);
  }

  /** The content of a source is that of the leaf of this path which was needed last. A source without a path is listed for it, too. */
  useLeaf(leaf) {
    this.lastLeaf = leaf;
    const { id, source, content, isIgnored } = leaf;
    if (content != null) this.contents[id === NOT_YET ? this.sources.put(source) : id] = content;
    if (isIgnored && id !== NOT_YET) this.ignored.add(id);
  }

  /** The id of the name of a place; an empty name is none. */
  nameOf({ nodeOfName, name }) {
    if (name === NONE) return NONE;
    const { map, nameIds } = nodeOfName;
    if (nameIds[name] === NOT_YET) nameIds[name] = map.names[name] ? this.names.put(map.names[name]) : NONE;
    return nameIds[name];
  }

  finish() {
    const sources = this.sources.list;
    return {
      tokens: this.tokens.subarray(0, this.length),
      names: this.names.list,
      sources,
      sourcesContent: sources.map((_, i) => this.contents[i] ?? null),
      ignoreList: [...this.ignored],
    };
  }
}

/** Adds what the token of the root at an index of words leads to. */
function addToken(output, root, at, place) {
  const { tokens } = root;
  if (tokens[at + 4] === NO_ID) return output.addUnmapped(tokens[at], tokens[at + 1]);
  place.name = NONE;
  place.follow(root, tokens, at);
  const leaf = leafOf(root.children[tokens[at + 4]], place);
  if (leaf === NOWHERE) return undefined;
  if (leaf === UNMAPPED) return output.addUnmapped(tokens[at], tokens[at + 1]);
  return output.addOriginal(tokens[at], tokens[at + 1], leaf, place);
}

/** The lists and tokens of the map that a tree leads to. */
function traced(tree) {
  const root = new Node(tree);
  const tokens = root.read();
  const output = new Output(tokens.length);
  const place = new Place();
  for (let at = 0; at < tokens.length; at += WORDS) {
    if (at > 0 && tokens[at] !== tokens[at - WORDS]) output.startLine();
    addToken(output, root, at, place);
  }
  return { file: tree.map.file, ...output.finish() };
}

module.exports = { traced };

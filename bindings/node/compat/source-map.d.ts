/**
 * The API of the package source-map 0.6, synchronous, over this library. Lines count from 1, columns from 0 in UTF-16 units.
 *
 * The shapes are those of the package, so that code that was written for it compiles: what they call a string or a number may be null
 * where nothing is known.
 *
 * @example
 * const consumer = new SourceMapConsumer(fs.readFileSync("app.js.map", "utf8"));
 * consumer.originalPositionFor({ line: 1, column: 1041 }); // { source: "a.ts", line: 8, column: 2, name: null }
 */

export interface StartOfSourceMap {
  file?: string;
  sourceRoot?: string;
  /** Takes mappings as they come, without a look at them. One that a map can not hold is refused all the same. */
  skipValidation?: boolean;
  /** Of source-map-js: warns about an invalid mapping, and skips it. */
  ignoreInvalidMapping?: boolean;
}

export interface RawSourceMap {
  version: number | string;
  file?: string;
  sourceRoot?: string;
  sources: string[];
  sourcesContent?: string[];
  names: string[];
  mappings: string;
}

export interface RawSection {
  offset: { line: number; column: number };
  map: RawSourceMap | RawIndexMap;
}

export interface RawIndexMap {
  version: number | string;
  file?: string;
  sections: RawSection[];
}

export interface Position {
  line: number;
  column: number;
}

export interface LineRange extends Position {
  /** Null as long as spans are not computed; Infinity up to the end of the line. */
  lastColumn: number;
}

export interface FindPosition extends Position {
  /** GREATEST_LOWER_BOUND (the default) or LEAST_UPPER_BOUND. */
  bias?: number;
}

export interface SourceFindPosition extends FindPosition {
  source: string;
}

/** A position in a source. All members are null if there is none. */
export interface MappedPosition extends Position {
  source: string;
  name?: string;
}

/** A mapping. Without a source it has nulls for what is original. */
export interface MappingItem {
  source: string;
  generatedLine: number;
  generatedColumn: number;
  originalLine: number;
  originalColumn: number;
  name: string;
}

/** A map that is asked. For an indexed map it is made of its sections. */
export class SourceMapConsumer {
  static GENERATED_ORDER: number;
  static ORIGINAL_ORDER: number;
  static GREATEST_LOWER_BOUND: number;
  static LEAST_UPPER_BOUND: number;

  /** A consumer of what a generator has so far. */
  static fromSourceMap(generator: SourceMapGenerator, sourceMapURL?: string): SourceMapConsumer;

  /**
   * Takes the value of a map, or its JSON text. Sources are found from the URL of the map, if it is given.
   *
   * Throws SyntaxError if the text is not JSON, and Error if a member is missing or the version is not 3, or if sections are out of
   * order. Faults of the mappings are thrown by the first call that needs them.
   */
  constructor(map: RawSourceMap | RawIndexMap | string, sourceMapURL?: string);

  /** Null if the map has none. Undefined of an indexed map, whose sections have them. */
  file: string;
  sourceRoot: string;
  sourcesContent: string[];
  /** The URLs of all sources. */
  readonly sources: string[];

  /** Makes positions have their last columns from now on. */
  computeColumnSpans(): void;
  /**
   * The original position of a generated one, by the last mapping on its line at or before it, or with LEAST_UPPER_BOUND the first one
   * at or after it. Throws Error if line or column is missing, and TypeError if the line is below 1 or the column below 0.
   */
  originalPositionFor(position: FindPosition): MappedPosition;
  /** The first generated position of an original one, or of the next one before or after it in its source. Fails in the same way. */
  generatedPositionFor(position: SourceFindPosition): LineRange;
  /** All generated positions of the next column, at or after this one, that the line has any of; without a column, those of the next
   *  line of the source. Fails in the same way. */
  allGeneratedPositionsFor(position: { source: string; line: number; column?: number; name?: string }): LineRange[];
  /** Whether there is a content of each source. */
  hasContentsOfAllSources(): boolean;
  /** The content of a source, null if it is not known. Throws Error if the map has no such source, unless null is asked for. */
  sourceContentFor(source: string, returnNullOnMissing?: boolean): string;
  /** Calls back with each mapping. Throws Error of an order that there is not. */
  eachMapping(callback: (mapping: MappingItem, index: number) => void, context?: any, order?: number): void;
  /** Frees what the consumer holds of the library, as the one of version 0.7 does; else the garbage collector does. Lookups may throw from
   *  then on. */
  destroy(): void;
}

export interface Mapping {
  generated: Position;
  original: Position;
  source: string;
  name?: string;
}

/** A map that is made mapping by mapping, in any order. */
export class SourceMapGenerator {
  /** A generator with the mappings, sources and contents of a consumer. */
  static fromSourceMap(consumer: SourceMapConsumer, options?: StartOfSourceMap): SourceMapGenerator;

  constructor(start?: StartOfSourceMap);

  /** Throws Error if a mapping is neither a generated position alone, nor one with an original position and a source. */
  addMapping(mapping: Mapping | { generated: Position }): void;
  /** Sets the content of a source, or removes it with null. */
  setSourceContent(sourceFile: string, sourceContent: string | null): void;
  /**
   * Traces the mappings of one source through the map of that source. The source is by default the one with the name of that map's file;
   * the map's own sources are resolved from a path, if it is given. Throws Error if neither names the source.
   */
  applySourceMap(consumer: SourceMapConsumer, sourceFile?: string, sourceMapPath?: string): void;
  /** The value of the map. */
  toJSON(): RawSourceMap;
  /** Its JSON text. */
  toString(): string;
}

export interface CodeWithSourceMap {
  code: string;
  map: SourceMapGenerator;
}

export type Chunk = string | SourceNode | Chunk[];

/** A tree of pieces of code, and where each comes from. */
export class SourceNode {
  /** Cuts a code at the mappings of its map. Sources are found from a path, if it is given. */
  static fromStringWithSourceMap(code: string, consumer: SourceMapConsumer, relativePath?: string): SourceNode;

  constructor(line?: number | null, column?: number | null, source?: string | null, chunks?: Chunk | null, name?: string | null);

  children: (string | SourceNode)[];
  sourceContents: { [source: string]: string };
  line: number | null;
  column: number | null;
  source: string | null;
  name: string | null;

  /** Adds code behind or before. Throws TypeError for what is no code. */
  add(chunk: Chunk): SourceNode;
  prepend(chunk: Chunk): SourceNode;
  setSourceContent(sourceFile: string, sourceContent: string): void;
  /** Calls back with each piece of code. */
  walk(visit: (chunk: string, original: MappedPosition) => void): void;
  /** Calls back with each source whose content is set. */
  walkSourceContents(visit: (source: string, content: string) => void): void;
  /** Puts code between the children. */
  join(separator: string | SourceNode): SourceNode;
  /** Replaces in the last piece of code, as String.prototype.replace does. */
  replaceRight(pattern: string | RegExp, replacement: string): SourceNode;
  /** The code. */
  toString(): string;
  /** The code and its map. Throws Error of a node whose line is below 1 or whose column is below 0. */
  toStringWithSourceMap(start?: StartOfSourceMap): CodeWithSourceMap;
}

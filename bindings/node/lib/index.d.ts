/**
 * Reads, writes, traces both ways, builds, joins and composes source maps of version 3 (ECMA-426).
 *
 * Lines, columns, ids and indices count from 0; columns are in UTF-16 code units. Each is an integer from 0 to 4294967295: another number,
 * such as -1, 1.5, NaN or Infinity, is a RangeError, and any other value a TypeError.
 *
 * Texts are strings, or Uint8Arrays of UTF-8 (a Buffer is one). A string with half a surrogate pair is a TypeError; bytes that are
 * not UTF-8 are a SourceMapError of SMAP_NOT_UTF8.
 *
 * A call that fails leaves the object and its arguments unchanged. Each call that makes, adds or sets something may also fail with
 * SMAP_OUT_OF_MEMORY.
 */

declare global {
  interface SymbolConstructor {
    readonly dispose: unique symbol;
  }
}

import type { ScopesFault } from "./scopes.js";
export * from "./scopes.js";

/** A text: a string, or UTF-8. */
export type Text = string | Uint8Array;

/** Stands for no id and no index in arrays of numbers. */
export const NO_ID: 0xffffffff;

/** Which token answers for a generated position. */
export const Bias: {
  /** The last one on its line at or before its column; the first of several at the column itself. */
  readonly BEFORE: 0;
  /** The same, or else the first one on its line. */
  readonly CLAMPED: 1;
  /** The first one on its line at or after its column; the last of several at the column itself. */
  readonly AFTER: 2;
};
export type Bias = 0 | 1 | 2;

/** Which tokens answer for an original position. */
export const Direction: {
  /** Those at this line and column of the source. */
  readonly AT: 0;
  /** Those at the last column with tokens at or before this one on the line. */
  readonly FOR: 1;
  /** Those at the first column with tokens at or after this one on the line. */
  readonly FROM: 2;
  /** Those on this line; the column is not read. */
  readonly ON_LINE: 3;
};
export type Direction = 0 | 1 | 2 | 3;

/** The language of a code. */
export const Language: {
  readonly JAVASCRIPT: 0;
  readonly CSS: 1;
};
export type Language = 0 | 1;

/** A position of a code. */
export interface Position {
  line: number;
  column: number;
}

/** A position of a source, by its id or its name, and which tokens answer for it. */
export interface OriginalPosition extends Position {
  source: number | string;
  direction?: Direction | undefined;
}

/** A generated position and what it points to. Without a source it is unmapped. */
export interface Token {
  generatedLine: number;
  generatedColumn: number;
  originalLine: number;
  originalColumn: number;
  sourceId: number | null;
  nameId: number | null;
}

/** A token and its index in the map. */
export interface FoundToken extends Token {
  index: number;
}

/** An original position. `index` is that of the token that points there. */
export interface Original {
  source: string;
  line: number;
  column: number;
  name: string | null;
  index: number;
}

/** A piece of generated code, from `begin` up to but not including `end`, and the index of the token that is found at each of its
 *  positions; null if none is. */
export interface Piece {
  begin: Position;
  end: Position;
  index: number | null;
}

/** The number of entries of each list, of lines up to the last token, and of the bytes of a map's texts, tokens and indices. */
export interface Counts {
  tokens: number;
  names: number;
  sources: number;
  sourcesContent: number;
  ignoreList: number;
  lines: number;
  bytes: number;
}

/** The lists of a map beside its tokens. There may be fewer contents than sources, and null is one that is not known. */
export interface Lists {
  names?: Iterable<Text>;
  sources?: Iterable<Text>;
  sourcesContent?: Iterable<Text | null>;
  /** The ids of sources that debuggers may skip. An empty one is none. */
  ignoreList?: Iterable<number>;
  file?: Text;
  sourceRoot?: Text;
  debugId?: Text;
}

/** A map, and where its code begins in the joined code; the column is 0 if it is omitted. */
export interface Part {
  map: SourceMap;
  line: number;
  column?: number;
}

/** The JSON value of a map. */
export interface RawSourceMap {
  version: 3;
  file?: string;
  sourceRoot?: string;
  sources: string[];
  sourcesContent?: (string | null)[];
  names: string[];
  mappings: string;
  debugId?: string;
  ignoreList?: number[];
}

/** A segment of decoded mappings: the generated column; then, of a mapped one, the id of the source, its line and column; then the id of
 *  the name. */
export type Segment = [number] | [number, number, number, number] | [number, number, number, number, number];

/** Mappings as a text, or decoded: a list of lines, each of segments, as packages of npm have them. */
export type Mappings = string | readonly (readonly Segment[])[];

/** The value of a map, as `JSON.parse` or a bundler gives it. Other members are read as in the JSON text. */
export interface MapValue {
  version: number | string;
  file?: string | null | undefined;
  sourceRoot?: string | null | undefined;
  sources: readonly (string | null)[];
  sourcesContent?: readonly (string | null)[] | null | undefined;
  names?: readonly string[] | undefined;
  mappings: Mappings;
  /** Which `Scopes.read` reads. */
  scopes?: string | null | undefined;
}

/** The value of an indexed map. */
export interface IndexedMapValue {
  version: number | string;
  sections: readonly { offset: Position; map: MapValue | IndexedMapValue }[];
}

/**
 * What a map is read from: its JSON text; its value, or an object whose `toJSON` returns it, such as a generator or another SourceMap; or
 * the URL of a file (Node 20.16 and later) or of data.
 */
export type MapInput = Text | MapValue | IndexedMapValue | { toJSON(): unknown } | { readonly href: string; readonly protocol: string };

/** How to read a map. */
export interface ReadOptions {
  /** Keeps the members whose names begin with `x_`, which the format does not know; otherwise they are dropped. */
  readonly keepUnknown?: boolean | undefined;
}

/** A token with its texts. What it does not have is null: for a token without a source, all but the generated position. */
export interface Mapping {
  generatedLine: number;
  generatedColumn: number;
  source: string | null;
  originalLine: number | null;
  originalColumn: number | null;
  name: string | null;
  index: number;
}

/** What was mended in a map that was read as it is found. */
export type MendKind =
  | "BYTE_ORDER_MARK"
  | "JSON_PREFIX"
  | "DATA_URL"
  | "VERSION"
  | "NO_SOURCES"
  | "NULL_SOURCE"
  | "NO_CONTENTS"
  | "BAD_CONTENT"
  | "NULL_NAMES"
  | "NO_IGNORE_LIST"
  | "BAD_IGNORED_ID"
  | "NO_GOOGLE_IGNORE_LIST"
  | "BAD_GOOGLE_IGNORED_ID"
  | "SOURCE_IDS"
  | "NAME_IDS"
  | "UNSORTED"
  | "CUT";

export interface Mend {
  kind: MendKind;
  /** The number of the section, in an indexed map; else null. */
  section: number | null;
  /** The index of the entry, or how many tokens. */
  number: number;
  /** The mend as words, as "source 7 is null, and is read as an empty text". */
  message: string;
}

/** A member of the JSON value of a map, or the value itself. */
export type Field =
  | "value"
  | "version"
  | "file"
  | "mappings"
  | "sourceRoot"
  | "sources"
  | "sourcesContent"
  | "names"
  | "debugId"
  | "ignoreList"
  | "x_google_ignoreList"
  | "sections"
  | "offset"
  | "map";

/** The place of a fault in the input. Members of other kinds of place are null. */
export interface FaultPlace {
  /** A segment of the mappings, where a text is not JSON, a member of a map, or an entry of one. */
  kind: "segment" | "reading" | "member" | "entry";
  /** The member, of "member" and "entry". */
  field: Field | null;
  /** The number of the text, of several. */
  text: number | null;
  /** The number of the section, in an indexed map. */
  section: number | null;
  /** The generated line of a segment, or the line of the text. */
  line: number | null;
  /** The number of the segment on its line. */
  segment: number | null;
  /** In a text that is not JSON, how many bytes of the line are before. */
  column: number | null;
  /** The byte of the mappings where the segment begins, or that of the text. */
  byte: number | null;
  /** The index of the entry. */
  entry: number | null;
}

/** The codes of errors, as in oxc_sourcemap.h. */
export type Code =
  | "SMAP_VLQ_LEFTOVER"
  | "SMAP_VLQ_NO_VALUES"
  | "SMAP_VLQ_OVERFLOW"
  | "SMAP_JSON_READING"
  | "SMAP_JSON_SHAPE"
  | "SMAP_JSON_VERSION"
  | "SMAP_BAD_SEGMENT_SIZE"
  | "SMAP_BAD_SOURCE_REFERENCE"
  | "SMAP_BAD_NAME_REFERENCE"
  | "SMAP_OUT_OF_MEMORY"
  | "SMAP_TOO_LARGE"
  | "SMAP_LINE_ORDER"
  | "SMAP_BAD_CHUNKS"
  | "SMAP_SEVERAL_SOURCES"
  | "SMAP_UNSORTED"
  | "SMAP_TOO_DEEP"
  | "SMAP_WORDS"
  | "SMAP_NO_TEXT"
  | "SMAP_SECTION_ORDER"
  | "SMAP_INPUT_LINE_ORDER"
  | "SMAP_BAD_BASE64"
  | "SMAP_BAD_DATA_UTF8"
  | "SMAP_NOT_COMPILED"
  | "SMAP_COMPILED_VERSION"
  | "SMAP_COMPILED_LENGTH"
  | "SMAP_COMPILED_SIZES"
  | "SMAP_BAD_SCOPES"
  | "SMAP_SCOPES_NOT_TEXT"
  | "SMAP_SCOPES_INDEXED"
  | "SMAP_NULL_HANDLE"
  | "SMAP_NOT_UTF8"
  | "SMAP_LENGTHS"
  | "SMAP_NO_ENTRY"
  | "SMAP_NO_INDEX"
  | "SMAP_BAD_OPTION"
  | "SMAP_NO_FILE"
  | "SMAP_NOT_SHARED"
  | "SMAP_UNKNOWN"
  /** The map is shared with other threads, and cannot be changed. */
  | "SMAP_SHARED"
  | "SMAP_NO_THREADS";

/**
 * A call that was refused.
 *
 * @example
 * try {
 *   new SourceMap('{"version":3,"sources":["a.ts"],"mappings":"AAAA;A,AA"}');
 * } catch (error) {
 *   error.message;      // "Mapping segment had an unsupported size of 2, at line 1, segment 1 (byte 7)"
 *   error.code;         // "SMAP_BAD_SEGMENT_SIZE"
 *   error.placeMessage; // "line 1, segment 1 (byte 7)"
 * }
 */
export class SourceMapError extends Error {
  private constructor();
  readonly name: "SourceMapError";
  /** What is wrong, followed by ", at" and the place, if that is known. */
  readonly message: string;
  readonly code: Code;
  /** The number that belongs to the code: an id, an index, a size, a version, or of SMAP_BAD_SCOPES the byte of the text of scopes at which
   *  the item at fault begins; else 0. */
  readonly detail: number;
  /** The member that is missing or has the wrong type, of SMAP_JSON_SHAPE; else null. */
  readonly field: Field | null;
  /** What is wrong with an item of a text of scopes, of SMAP_BAD_SCOPES; else null. */
  readonly reason: ScopesFault | null;
  /** The place of the fault in the input, if it is known. */
  readonly place: FaultPlace | null;
  /**
   * The place in one line, or "". Where a text was read and `message` names another cause, the actual cause follows: "line 0, segment 1
   * (byte 5): a column below 0".
   */
  readonly placeMessage: string;
}

/**
 * A source map. `free`, or the end of a `using`, frees it at once; else the garbage collector does. All calls of a map that was freed
 * fail with SMAP_NULL_HANDLE.
 *
 * @example
 * const map = new SourceMap('{"version":3,"sources":["a.ts"],"names":["f"],"mappings":"AAEA,IAAIA"}');
 * map.trace(0, 5); // { source: "a.ts", line: 2, column: 4, name: "f", index: 1 }
 */
export class SourceMap {
  /**
   * Reads a map from a MapInput. An indexed map is read as the join of its sections, without their source roots. A value is read as its
   * text by JSON.stringify is.
   *
   * Throws SourceMapError of SMAP_JSON_READING, SMAP_JSON_SHAPE, SMAP_JSON_VERSION, SMAP_BAD_SOURCE_REFERENCE (of the ignore list),
   * of a fault of the mappings (SMAP_VLQ_OVERFLOW, SMAP_VLQ_LEFTOVER, SMAP_BAD_SEGMENT_SIZE, SMAP_BAD_SOURCE_REFERENCE,
   * SMAP_BAD_NAME_REFERENCE, SMAP_TOO_LARGE), or of SMAP_SECTION_ORDER; each has its place. An unreadable file throws the error of the file
   * system; a URL of another kind, or an object that is no value of a map, a TypeError; a bad segment of decoded mappings a RangeError or a
   * TypeError.
   *
   * @example
   * new SourceMap(bundle.map); // of rollup, webpack, magic-string, babel
   * new SourceMap({ version: 3, sources: ["a.ts"], names: [], mappings: [[[0, 0, 2, 0]]] });
   * new SourceMap(new URL("app.js.map", import.meta.url));
   */
  constructor(json: MapInput, options?: ReadOptions);

  /** What the package runs on: the addon, or the WebAssembly module. */
  static readonly backend: "addon" | "module";

  /**
   * The same on a thread of the pool. The text is copied, and may change meanwhile. The promise rejects with what the constructor throws.
   *
   * @example
   * const map = await SourceMap.read(await fs.promises.readFile("app.js.map"));
   */
  static read(json: MapInput, options?: ReadOptions): Promise<SourceMap>;

  /**
   * Reads a map as it is found, and reports what it mended, such as a byte order mark, null sources, or ids out of range. The map is sorted
   * and sound. A text that the constructor reads as a sorted map gives the same map, without mends. Throws SourceMapError of the first
   * fault that is not mended, with its place if it has one (smap_read_found in oxc_sourcemap.h).
   *
   * @example
   * const { map, mends } = SourceMap.found('{"version":"3","sources":[null],"mappings":"AAAA"}');
   * mends[1].message; // "source 0 is null, and is read as an empty text"
   */
  static found(text: MapInput, options?: ReadOptions): { map: SourceMap; mends: Mend[] };

  /**
   * Makes a map of whole lists. Tokens are six numbers each (generated line and column, original line and column, id of the source and
   * of the name), where NO_ID stands for no id, or objects.
   *
   * Throws SourceMapError of SMAP_BAD_SOURCE_REFERENCE or SMAP_BAD_NAME_REFERENCE if an id is out of range.
   *
   * @example
   * SourceMap.fromTokens(Uint32Array.of(0, 4, 2, 0, 0, NO_ID), { sources: ["a.ts"] }).mappings; // "IAEA"
   */
  static fromTokens(tokens: Uint32Array | Iterable<Token>, lists?: Lists): SourceMap;

  /**
   * Reads a mappings text alone, whose ids have to be below these numbers of names and sources (4294967295 by default). The map has its
   * tokens, and no names and no sources. Throws SourceMapError of a fault of the mappings, as the constructor does.
   *
   * @example
   * SourceMap.fromMappings("AAAA;C").token(1).generatedLine; // 1
   */
  static fromMappings(mappings: Text | Mappings, limits?: { names?: number; sources?: number }): SourceMap;

  /**
   * Joins maps, each where its code begins in the joined code. Source roots are dropped unless `applySourceRoot` ran before. Throws
   * SourceMapError of SMAP_TOO_LARGE.
   *
   * @example
   * SourceMap.join([{ map: header, line: 0 }, { map: body, line: 7 }]);
   */
  static join(parts: Iterable<Part>): SourceMap;

  /**
   * A map that another thread shared, by its number. It cannot be changed, and lives as long as it is used here, whatever the other thread
   * does. Throws SourceMapError of SMAP_NO_ENTRY if no thread has a map of this number any more.
   */
  static shared(number: number): SourceMap;

  /**
   * Shares the map with other threads: send the number to a worker in a message, and `SourceMap.shared` makes a map of it there. Any number
   * of threads may then read it at once. From then on the map cannot be changed: calls that change it fail with SMAP_SHARED (so call
   * `indexSources` before, if workers look up generated positions).
   *
   * The garbage collector does not free a shared map. Threads can get it until `free`, or until its thread ends, and after that as long as
   * another thread has it.
   *
   * Throws SourceMapError of SMAP_NO_THREADS where the package runs as a WebAssembly module, which shares no maps.
   *
   * @example
   * worker.postMessage(map.share());
   */
  share(): number;

  /** Frees the map, if it is not freed yet. */
  free(): void;
  [Symbol.dispose](): void;

  /** A map that is equal to this one, and is not shared. */
  clone(): SourceMap;

  // ---- what a map holds ----

  readonly counts: Counts;
  /** Whether the tokens are sorted by generated line and column. */
  readonly isSorted: boolean;
  /** Whether the tokens are sorted, and all ids are in range. */
  readonly isSound: boolean;
  /** All names, in a frozen array, which is kept. */
  readonly names: readonly string[];
  /** All sources as listed, without the source root, in a frozen array, which is kept. */
  readonly sources: readonly string[];
  /** All contents, null for one that is not known. Each call makes a new array: for one content use `getSourceContent`. */
  readonly sourcesContent: (string | null)[];
  /** The name, the source or the content of a source with this id; null if there is none, or it is unknown. `getSourceContent` also takes
   *  a name from `sources`; of equal ones the first counts. */
  getName(id: number): string | null;
  getSource(id: number): string | null;
  getSourceContent(source: number | string): string | null;
  /** The members that `keepUnknown` kept. They are written with the map, and its clones have them; null if there are none. */
  readonly unknownMembers: { readonly [name: string]: unknown } | null;
  /** The name of the generated file, the source root and the debug id; null if the map has none. */
  readonly file: string | null;
  readonly sourceRoot: string | null;
  readonly debugId: string | null;
  /** The ids of sources that debuggers may skip; null if the map has no such list. */
  readonly ignoreList: number[] | null;
  /** The token at an index; null past the last one. */
  token(index: number): FoundToken | null;
  /**
   * All tokens, six numbers each, as `fromTokens` takes them, written to `out` if it is given. Throws SourceMapError of SMAP_LENGTHS if
   * `out` has room for more or for less.
   */
  tokens<Out extends Uint32Array = Uint32Array>(out?: Out): Out;
  /** All tokens as decoded mappings, of the lines up to the last token. The tokens have to be in order of lines. */
  readonly decodedMappings: Segment[][];
  /**
   * All tokens with their texts, as they are when the loop begins.
   *
   * @example
   * for (const { generatedLine, source } of map) console.log(generatedLine, source);
   */
  [Symbol.iterator](): IterableIterator<Mapping>;
  /** The same, by a callback. */
  eachMapping(callback: (mapping: Mapping) => void): void;

  // ---- lookups ----

  /**
   * The original position of a generated one; null if there is none.
   *
   * Throws SourceMapError of SMAP_BAD_OPTION, or of SMAP_LINE_ORDER if the tokens are not in order of lines, as can happen after a join.
   * For other unsorted maps, it succeeds with some answer.
   *
   * @example
   * map.trace(0, 1041); // { source: "a.ts", line: 7, column: 2, name: null, index: 91 }
   * map.trace({ line: 0, column: 1041 }); // the same
   */
  trace(line: number, column: number, bias?: Bias): Original | null;
  trace(position: Position & { bias?: Bias | undefined }): Original | null;
  /** The token that answers, which may have no source; null if there is none. Fails as `trace` does. */
  traceToken(line: number, column: number, bias?: Bias): FoundToken | null;
  traceToken(position: Position & { bias?: Bias | undefined }): FoundToken | null;
  /**
   * The tokens that answer for many positions (line and column of each), in any order: eight numbers for each, written to `out` if it is
   * given: the kind (0 for no token, 1 for one without a source, 2 for one with a source, 3 for one with a name), the index of the token,
   * and its six numbers. Without a token, the index and ids are NO_ID, and the others 0.
   *
   * Throws SourceMapError of SMAP_LENGTHS if `out` has room for more or for less, or if `positions` has an odd length, then as `trace`.
   */
  traceAll<Out extends Uint32Array = Uint32Array>(positions: Uint32Array, bias?: Bias, out?: Out): Out;
  /** The same, but the index of each token alone, where NO_ID stands for none. */
  findAll<Out extends Uint32Array = Uint32Array>(positions: Uint32Array, bias?: Bias, out?: Out): Out;
  /**
   * The pieces of a range of generated code, from `begin` up to but not including `end`, in order. Each extends as far as the same
   * token answers (by BEFORE) at each position. A range that ends at or before its beginning has none.
   */
  pieces(begin: Position, end: Position): Piece[];
  /** The first generated position that two maps trace differently, by texts (those of contents too) and not by ids; null if there is none.
   *  For unsorted maps it returns some answer. */
  firstDifference(other: SourceMap): Position | null;

  /** Makes the index by original positions, which takes 4 bytes a token. The next two calls make it if the map has none. A call that
   *  changes the tokens, such as `sort`, drops it. Throws SourceMapError of SMAP_TOO_LARGE. */
  indexSources(): void;
  /**
   * The first token in the order of the map that answers for an original position; null if there is none. The source is given by its id, or
   * its name, as `sources` has it: of equal ones the first counts, and one that is not listed has no answer.
   *
   * Throws SourceMapError of SMAP_BAD_OPTION, or of SMAP_NO_INDEX if the map is shared without an index.
   *
   * @example
   * map.generated("a.ts", 7, 0, Direction.FROM)?.generatedColumn;
   * map.generated({ source: "a.ts", line: 7, column: 0, direction: Direction.FROM }); // the same token
   */
  generated(source: number | string, line: number, column: number, direction?: Direction): FoundToken | null;
  generated(position: OriginalPosition): FoundToken | null;
  /** The indices of all tokens that answer, in the order of the map. Fails as `generated` does. */
  allGenerated(source: number | string, line: number, column: number, direction?: Direction): Uint32Array;
  allGenerated(position: OriginalPosition): Uint32Array;

  // ---- changing ----

  /** Set the name of the generated file, the source root and the debug id. */
  setFile(file: Text): void;
  setSourceRoot(root: Text): void;
  setDebugId(id: Text): void;
  /** Set all of a list. The ids of tokens, and those of the list of ignored sources, are not compared with the sources. */
  setSources(sources: Iterable<Text>): void;
  setSourcesContent(contents: Iterable<Text | null>): void;
  setIgnoreList(ids: Iterable<number>): void;
  /** Puts the source root before each source, and removes it from the map. */
  applySourceRoot(): void;
  /** Sorts the tokens by generated position; those at one position keep their order. */
  sort(): void;
  /**
   * Drops tokens, names and sources that no lookup needs (smap_simplify in oxc_sourcemap.h). Throws SourceMapError of SMAP_UNSORTED or
   * SMAP_TOO_LARGE.
   */
  simplify(): void;

  // ---- maps of maps ----

  /**
   * Composes this map, from generated to intermediate code, with one from intermediate to original code. Throws SourceMapError of
   * SMAP_SEVERAL_SOURCES (of this map), SMAP_LINE_ORDER (of the input) or SMAP_TOO_LARGE.
   */
  compose(input: SourceMap): SourceMap;
  /**
   * Traces this map through the maps of its sources: `inputs` pairs the path of a source with its map, as a Map, an object, or pairs; of
   * equal paths the first counts. Throws SourceMapError of SMAP_INPUT_LINE_ORDER or SMAP_TOO_LARGE.
   *
   * @example
   * bundle.remap({ "a.js": compiled }).sources; // ["a.ts", "b.js"]
   */
  remap(inputs: Iterable<readonly [Text, SourceMap]>): SourceMap;
  remap(inputs: { readonly [path: string]: SourceMap }): SourceMap;

  // ---- writing ----

  /**
   * The JSON text. Throws SourceMapError of SMAP_LINE_ORDER or SMAP_TOO_LARGE, the latter also if it has more than `limit` bytes of
   * UTF-8. A 100-byte map from others may have gigabytes of lines: with a limit, it throws before writing them.
   */
  toString(options?: { readonly limit?: number | undefined }): string;
  /** The same as UTF-8; in Node a Buffer. */
  toBytes(options?: { readonly limit?: number | undefined }): Uint8Array;
  /** The JSON value. */
  toJSON(): RawSourceMap;
  /** The JSON text as a data URL, of at most `limit` bytes. */
  toDataURL(options?: { readonly limit?: number | undefined }): string;
  /**
   * The bytes of a compiled map, which CompiledMap opens in constant time and searches in place; in Node a Buffer. They have a content for
   * each source, null if it is not known, and none past the last. `textLength` is the number of bytes of the map's text, and `stamp` 32
   * bytes that are stored unchanged, such as the SHA-256 of that text; 0 and zero bytes by default. Throws SourceMapError of SMAP_UNSORTED
   * or SMAP_TOO_LARGE, and TypeError of an option of another name.
   *
   * To leave contents out, remove them before: `const bare = map.clone(); bare.setSourcesContent([])`. A map of the same sources, with
   * contents and no tokens, has them apart, by the same ids: `SourceMap.fromTokens([], { sources: map.sources, sourcesContent:
   * map.sourcesContent })`.
   *
   * @example
   * // The file that `sourcemap compile` writes, and that `sourcemap resolve` reads instead of app.js.map until this has another text:
   * const text = fs.readFileSync("app.js.map");
   * const stamp = crypto.createHash("sha256").update(text).digest();
   * fs.writeFileSync("app.js.map.smc", new SourceMap(text).compile({ textLength: text.length, stamp }));
   */
  compile(options?: { readonly textLength?: number | undefined; readonly stamp?: Uint8Array | undefined }): Uint8Array;
  /** The mappings text alone. Throws as `toString` does. */
  readonly mappings: string;
  /** The text of a code beside its sources, token by token. */
  visualize(code: Text): string;
  /** A link to a page that shows a code beside its sources. Throws as `toString` does. */
  visualizerURL(code: Text): string;
}

/** The number of entries of each list of a compiled map. */
export interface CompiledCounts {
  tokens: number;
  names: number;
  sources: number;
  ignoreList: number;
}

/**
 * A compiled map, open in bytes of `SourceMap.compile`, a file or any other. Its members do what those of SourceMap do; `decompile`
 * gives a SourceMap, which has the others too.
 *
 * The map keeps the bytes, and nobody may change them before `free`: after a change, answers are undefined. The addon in Node does not copy
 * them, so that workers share bytes in a SharedArrayBuffer. If their buffer is transferred, or made shorter, all calls fail with
 * SMAP_NULL_HANDLE, as after `free`. The WebAssembly module copies them into its memory.
 *
 * In bytes that `compile` did not make, lookups find some token of the line, or none, and texts that are not UTF-8 have U+FFFD.
 *
 * @example
 * const map = new CompiledMap(fs.readFileSync("app.js.map.smc"));
 * map.trace(0, 5); // { source: "a.ts", line: 2, column: 4, name: "f", index: 1 }
 */
export class CompiledMap {
  /** Opens a compiled map. Throws SourceMapError of SMAP_NOT_COMPILED, SMAP_COMPILED_VERSION, SMAP_COMPILED_LENGTH or
   *  SMAP_COMPILED_SIZES. */
  constructor(bytes: ArrayBufferView | ArrayBufferLike);
  /**
   * Opens a file of a compiled map, only in Node. It reads the whole file, which may be changed or deleted afterwards. Throws TypeError for
   * what is no path, errors of the file system, and those of the constructor.
   *
   * @example
   * const map = CompiledMap.openFile("app.js.map.smc");
   * // Whether app.js.map has another text than when it was compiled, by the length in bytes and the SHA-256:
   * const text = fs.readFileSync("app.js.map");
   * const isStale = map.textLength !== text.length || !crypto.createHash("sha256").update(text).digest().equals(map.stamp);
   */
  static openFile(path: string | URL): CompiledMap;
  /** Frees the map, and releases the bytes. */
  free(): void;
  [Symbol.dispose](): void;
  /** The map that was compiled. Throws SourceMapError of SMAP_NO_ENTRY if a text is not UTF-8, or, only in bytes that `compile` did not
   *  make, the tokens of a line or the bytes of a text begin before those of the previous one, or the last ones end before they begin. A
   *  map of such bytes may be unsorted. */
  decompile(): SourceMap;

  readonly counts: CompiledCounts;
  /** The length of the map's text that `compile` was given, and a copy of the stamp of 32 bytes. */
  readonly textLength: number;
  readonly stamp: Uint8Array;
  getName(id: number): string | null;
  getSource(id: number): string | null;
  getSourceContent(id: number): string | null;
  /** All names, sources and contents, by their ids. Each call makes a new array: for one text use `getName` and the like. Throws
   *  SourceMapError of SMAP_NO_ENTRY if they are longer than the bytes, as only those of damaged bytes are. */
  readonly names: string[];
  readonly sources: string[];
  readonly sourcesContent: (string | null)[];
  readonly file: string | null;
  readonly sourceRoot: string | null;
  readonly debugId: string | null;
  readonly hasIgnoreList: boolean;
  /** Whether the ignore list has the id of a source. */
  isIgnored(id: number): boolean;
  /** The token at an index, whose line is found by binary search; null past the last one. */
  token(index: number): FoundToken | null;

  trace(line: number, column: number, bias?: Bias): Original | null;
  trace(position: Position & { bias?: Bias | undefined }): Original | null;
  traceToken(line: number, column: number, bias?: Bias): FoundToken | null;
  traceToken(position: Position & { bias?: Bias | undefined }): FoundToken | null;
  traceAll<Out extends Uint32Array = Uint32Array>(positions: Uint32Array, bias?: Bias, out?: Out): Out;
  findAll<Out extends Uint32Array = Uint32Array>(positions: Uint32Array, bias?: Bias, out?: Out): Out;
}

/**
 * Builds a map call by call.
 *
 * @example
 * const builder = new SourceMapBuilder();
 * const source = builder.addSource("a.ts", "let a;");
 * builder.addToken(0, 4, 0, 4, source);
 * builder.finish().toString();
 */
export class SourceMapBuilder {
  constructor();
  /** Adds a name, or finds the equal one that was added before, and returns its id. Ids count from 0 in the order in which names come.
   *  Throws SourceMapError of SMAP_TOO_LARGE if no id is left. */
  addName(name: Text): number;
  /** The same for a source by its path, with its content if known. A path added before keeps its id, and its content or lack of
   *  content. */
  addSource(path: Text, content?: Text | null): number;
  /** Appends a token. Add tokens in the order of their generated positions: otherwise the map is unsorted, and writing it may fail. Ids are
   *  not compared with what was added. */
  addToken(
    generatedLine: number,
    generatedColumn: number,
    originalLine: number,
    originalColumn: number,
    sourceId?: number | null,
    nameId?: number | null,
  ): void;
  /** Appends tokens, all of them or none; as `SourceMap.fromTokens` takes them. */
  addTokens(tokens: Uint32Array | Iterable<Token>): void;
  /** Sets the name of the generated file. */
  setFile(file: Text): void;
  /** Makes the map. The builder is then empty, like a new one. */
  finish(): SourceMap;
  free(): void;
  [Symbol.dispose](): void;
}

/**
 * Joins maps one by one, as `SourceMap.join` does at once.
 *
 * @example
 * const join = new ConcatSourceMapBuilder();
 * join.addSourceMap(header, 0);
 * join.addSourceMap(body, 7);
 * join.finish();
 */
export class ConcatSourceMapBuilder {
  constructor();
  /** Adds a map, whose code begins at this line and column of the joined code. The map may be changed or freed then. Source roots are
   *  dropped unless `applySourceRoot` ran before. Throws SourceMapError of SMAP_TOO_LARGE. */
  addSourceMap(map: SourceMap, line: number, column?: number): void;
  /** Makes the joined map. The builder is then empty, like a new one. */
  finish(): SourceMap;
  free(): void;
  [Symbol.dispose](): void;
}

/**
 * Evaluates a plan: words over JSON texts; one string is cut at its white space. `@K` reads text K (from 0), `sort @K` reads it and sorts
 * its tokens, `rewrite P` writes and reads again, `root P` puts the source root before the sources, `simplify P` drops what lookups do
 * not need, `join N` joins N times `P LINE`, `joinat N` N times `P LINE COLUMN`, `compose P P` composes, `remap P N` remaps by N times
 * `PATH P`.
 *
 * Throws SourceMapError of SMAP_WORDS, SMAP_NO_TEXT, SMAP_TOO_DEEP, or of the first step that fails; the error of a text has the number of
 * the text.
 *
 * @example
 * evaluate("compose @1 @0", [compiledMap, minifiedMap]).toString();
 */
export function evaluate(words: string | Iterable<Text>, texts: Iterable<Text>): SourceMap;

/** The mappings text of tokens, or of decoded mappings. Throws SourceMapError of SMAP_LINE_ORDER if a token is on a line before that of the
 *  previous token, or of SMAP_TOO_LARGE, also if it has more than `limit` bytes; of decoded mappings with a bad segment a RangeError or a
 *  TypeError. */
export function encodeMappings(
  tokens: Uint32Array | Iterable<Token> | readonly (readonly Segment[])[],
  options?: { readonly limit?: number | undefined },
): string;

/** The tokens of a mappings text, six numbers each; as `SourceMap.fromMappings(mappings, limits).tokens()`. */
export function decodeMappings(mappings: Text | Mappings, limits?: { names?: number; sources?: number }): Uint32Array;

/**
 * The URL of the map in the code's last sourceMappingURL comment; null if there is none. Throws SourceMapError of SMAP_BAD_OPTION.
 *
 * @example
 * sourceMappingURL("let a;\n//# sourceMappingURL=a.js.map\n"); // "a.js.map"
 */
export function sourceMappingURL(code: Text, language?: Language): string | null;

/** The text in a data URL of JSON, base64 or percent-encoded; null if it is no data URL of JSON. Throws SourceMapError of SMAP_BAD_BASE64
 *  or SMAP_BAD_DATA_UTF8. */
export function decodeDataURL(url: Text): string | null;

/** All of these, for `import junketscarp from "junketscarp"`. */
declare const junketscarp: typeof import("./index.js");
export default junketscarp;

/**
 * What the package is built on: functions over texts, numbers and typed arrays, which know nothing of classes, caches or defaults.
 *
 * An addon has them, and any module with the same functions may replace it. Nothing above this file knows which of them it has. It is no
 * part of what the package exports.
 *
 * Handles
 *  - A map, a compiled map, scopes, a builder and a join are opaque objects. `free` frees what a handle holds; else the garbage collector does, or the end of
 *    its thread. A freed handle is like a null handle of the library: calls return `SMAP_NULL_HANDLE` (100). So is a compiled map whose
 *    bytes JavaScript has taken away.
 *
 * Errors
 *  - A call that makes a handle, a text or a list returns it, or a number that is not 0: the code of an error. All other calls return
 *    a code, 0 for success, and write their results to `words`, or to an array of the caller.
 *  - After an error `fault` holds it; after a success it means nothing. Its words are those of `smap_fault`, low word first: code,
 *    field, detail (2), then the place: kind, field, text (2), section (2), line (2), column (2), byte (2), entry (2).
 *  - A call throws for three reasons alone: an argument of another type than is written here (TypeError), a text that is too long for
 *    a string of the engine, and no memory for the engine's own values.
 *
 * Texts
 *  - `Text` is a string or its bytes. A string with half a surrogate pair reads as U+FFFD there: callers check before.
 *  - Lists of texts go in as two arrays: the bytes of all, one after the other, and the length of each in bytes, NOT_TOLD for a
 *    content that is not known. They come out as arrays of strings.
 *
 * Numbers
 *  - All are of 32 bits without a sign. Others are cut to these; callers check before.
 *  - A token is six words: dst_line, dst_col, src_line, src_col, source_id, name_id. A position is two, line and column.
 *  - A call that fills a list writes as many entries as fit into `out`, and the number of all to `words[0]`.
 *
 * Arrays
 *  - A call reads or writes an array of the caller only while it runs, except `openCompiled`. An array over shared memory is copied first,
 *    but by that; one whose buffer was detached has no entries.
 */

export type Text = string | Uint8Array;

declare const kind: unique symbol;
export interface MapHandle {
  readonly [kind]: "map";
}
export interface BuilderHandle {
  readonly [kind]: "builder";
}
export interface JoinHandle {
  readonly [kind]: "join";
}
export interface CompiledHandle {
  readonly [kind]: "compiled";
}
export interface ScopesHandle {
  readonly [kind]: "scopes";
}
/** What is looked up in. */
export type AskedHandle = MapHandle | CompiledHandle;

/** The code of an error, or 0. */
export type Code = number;

/** A code that is none of the library's: the map is shared with other threads, and cannot be changed. */
export type SHARED = 200;

/** The same, for a module that shares no maps with other threads: what `share` returns there. */
export type NO_THREADS = 201;

/** The length of a text that is not known, and the id of nothing. */
export type NOT_TOLD = 0xffffffff;

/** Which text of a map, of `text`, `texts`, `setText` and `setTexts`. */
export const enum Which {
  NAME = 0,
  SOURCE = 1,
  CONTENT = 2,
  FILE = 3,
  SOURCE_ROOT = 4,
  DEBUG_ID = 5,
}

/** What `write` writes of a map. The last two are of a code beside its sources. */
export const enum Form {
  JSON = 0,
  DATA_URL = 1,
  MAPPINGS = 2,
  DRAWING = 3,
  DRAWING_URL = 4,
}

export interface Native {
  /** The version of the C interface that it has: 2. */
  readonly version: number;
  /** What it is. */
  readonly backend: "addon" | "module";
  /** 18 words: the last error. */
  readonly fault: Uint32Array;
  /** 16 words: the numbers that the last call returned; for the last four see `select` and `trace`. */
  readonly words: Uint32Array;

  // ---- reading ----

  fromJson(text: Text): MapHandle | Code;
  /** The same on another thread, if there is one. The text is copied. Resolves to the map, or to the words of its error. */
  readAsync(text: Text): Promise<MapHandle | Uint32Array>;
  /** Reads a map as it is found. The map keeps its mends, for `getMends`. */
  readFound(text: Text): MapHandle | Code;
  /** Six words for each mend: kind, 0, section (2), number (2). */
  getMends(map: MapHandle, out: Uint32Array): Code;
  fromTokens(
    tokens: Uint32Array,
    names: Uint8Array,
    nameLengths: Uint32Array,
    sources: Uint8Array,
    sourceLengths: Uint32Array,
    contents: Uint8Array,
    contentLengths: Uint32Array,
    ignoreList: Uint32Array,
  ): MapHandle | Code;
  /** The tokens of a mappings text alone, whose ids are to be below these numbers. */
  decodeMappings(mappings: Text, names: number, sources: number): MapHandle | Code;
  /** The tokens alone, which no handle holds: `words[0]` is how many there are, and `words[1]` whether they are sorted, 1 or 0. */
  decodeTokens(mappings: Text, names: number, sources: number, out: Uint32Array): Code;
  clone(map: MapHandle): MapHandle | Code;
  free(handle: MapHandle | BuilderHandle | JoinHandle | CompiledHandle | ScopesHandle): void;

  // ---- threads ----

  /** The number by which `takeShared` of another thread finds the map, for as long as any handle of it exists. From now on the map takes no
   *  change: calls that change it answer SHARED. `words[0]` is the number. A WebAssembly module answers NO_THREADS. */
  share(map: MapHandle): Code;
  /** A handle of a map that was shared, or 103 if there is none of this number any more. */
  takeShared(number: number): MapHandle | Code;

  // ---- what a map holds ----

  /** `words[0]` to `[7]`: tokens, names, sources, contents, ignore list, lines, and bytes held (2). */
  getCounts(map: MapHandle): Code;
  /** `words[0]` is 1 or 0. */
  isSorted(map: MapHandle): Code;
  isSound(map: MapHandle): Code;
  /** 103 if there is none. The id is that of a name, a source or a content. */
  text(map: AskedHandle, which: Which, id: number): string | Code;
  /** All names, sources or contents; null for a content that is not known. */
  texts(map: MapHandle, which: Which): (string | null)[] | Code;
  /** `words[0]` to `[5]`: the token. 103 past the last one. */
  getToken(map: AskedHandle, index: number): Code;
  getTokens(map: MapHandle, out: Uint32Array): Code;
  /** 103 if the map has none. */
  getIgnoreList(map: MapHandle, out: Uint32Array): Code;

  // ---- lookups ----

  /** Names the map that `trace` asks, until another is named or this one is freed. `words[12]` is from here on, as long as that is so, a
   *  number that no other map has; 0 where there are no more such numbers. Callers that find the number of their map there need not
   *  name it again. */
  select(map: AskedHandle): void;
  /** Looks up the line `words[13]`, the column `words[14]` by the bias `words[15]`, in the map that was selected. `words[0]` to `[7]`:
   *  the kind, the index of the token, and the token. This call alone returns nothing for success. */
  trace(): Code | undefined;
  /** Eight words for each position, as `trace` answers. 102 if `out` has room for more or for less. */
  traceAll(map: AskedHandle, positions: Uint32Array, bias: number, out: Uint32Array): Code;
  /** The index of the token alone for each. */
  findAll(map: AskedHandle, positions: Uint32Array, bias: number, out: Uint32Array): Code;
  /** Five words for each piece: line and column of its begin, and of its end, and the index of the token. */
  pieces(map: MapHandle, line: number, column: number, endLine: number, endColumn: number, out: Uint32Array): Code;
  /** `words[0]` and `[1]`: line and column. 103 if there is none. */
  firstDifference(map: MapHandle, other: MapHandle): Code;
  indexSources(map: MapHandle): Code;
  /** `words[0]` to `[6]`: index and token. 103 if there is none. */
  generated(map: MapHandle, source: number, line: number, column: number, direction: number): Code;
  allGenerated(map: MapHandle, source: number, line: number, column: number, direction: number, out: Uint32Array): Code;

  // ---- compiled maps, which some calls above take too ----

  /** The bytes of a compiled map. The length of its text is of two words, low word first. The stamp has 32 bytes, or none, which stands
   *  for zero bytes; else 102. */
  compile(map: MapHandle, lengthLow: number, lengthHigh: number, stamp: Uint8Array): Uint8Array | Code;
  /** Opens a compiled map. The addon does so where the bytes are, and keeps the array, over shared memory too; a module in a copy. */
  openCompiled(bytes: Uint8Array): CompiledHandle | Code;
  /** `words[0]` to `[10]`: tokens, sources, names, entries of the ignore list and length of the text (2 each), and whether there is an
   *  ignore list, 1 or 0. */
  compiledCounts(map: CompiledHandle): Code;
  /** A copy of the 32 bytes of the stamp. */
  stamp(map: CompiledHandle): Uint8Array | Code;
  /** `words[0]` is 1 or 0. */
  isIgnored(map: CompiledHandle, id: number): Code;
  /** 103 if a text is not UTF-8. */
  decompile(map: CompiledHandle): MapHandle | Code;

  // ---- scopes ----

  /** The scopes of a map, by its JSON text. */
  readScopes(json: Text): ScopesHandle | Code;
  /** The same by their text alone, of a map with so many names. */
  decodeScopes(text: Text, names: number): ScopesHandle | Code;
  /** `words[0]` to `[5]`: sources, scopes and ranges (2 each). */
  scopesCounts(scopes: ScopesHandle): Code;
  /** `words[0]` to `[8]`: the source, the start, the end, the ids of name and kind, whether it is a stack frame, the index of the scope
   *  around it. 103 past the last one. */
  getScope(scopes: ScopesHandle, index: number): Code;
  /** `words[0]` to `[10]`: the start, the end, the index of the scope, whether it is a stack frame and whether it is hidden, the source,
   *  the line and the column of the call, the index of the range around it. 103 past the last one. */
  getRange(scopes: ScopesHandle, index: number): Code;
  /** `words[0]` is the index of a scope. 103 if there is none. */
  scopeAt(scopes: ScopesHandle, source: number, line: number, column: number): Code;
  functionAt(scopes: ScopesHandle, source: number, line: number, column: number): Code;
  /** That of a range. */
  rangeAt(scopes: ScopesHandle, line: number, column: number): Code;
  /** Five words for each frame: the id of its name, the index of its scope, and the source, the line and the column of the call.
   *  `words[1]` is whether the frame is hidden, 1 or 0. */
  framesAt(scopes: ScopesHandle, line: number, column: number, out: Uint32Array): Code;
  /** The id of the name of each variable of a scope. 103 past the last scope. */
  getVariables(scopes: ScopesHandle, scope: number, out: Uint32Array): Code;
  /** `words[0]` is the id of the name that is the expression for a value. 103 past the last range. */
  valueAt(scopes: ScopesHandle, range: number, variable: number, line: number, column: number): Code;
  /** Two words for each scope: its index, and that of its range. */
  scopeChainAt(scopes: ScopesHandle, line: number, column: number, out: Uint32Array): Code;
  /** The same for a frame. 103 past the last one, so of each where no range contains the position. */
  scopeChain(scopes: ScopesHandle, frame: number, line: number, column: number, out: Uint32Array): Code;

  // ---- changing ----

  /** Sets the file, the source root or the debug id. */
  setText(map: MapHandle, which: Which, text: Text): Code;
  /** Sets all sources or contents. */
  setTexts(map: MapHandle, which: Which, texts: Uint8Array, lengths: Uint32Array): Code;
  setIgnoreList(map: MapHandle, ids: Uint32Array): Code;
  applySourceRoot(map: MapHandle): Code;
  sort(map: MapHandle): Code;
  simplify(map: MapHandle): Code;

  // ---- maps of maps ----

  compose(map: MapHandle, input: MapHandle): MapHandle | Code;
  remap(map: MapHandle, paths: Uint8Array, pathLengths: Uint32Array, inputs: MapHandle[]): MapHandle | Code;
  joinAll(maps: MapHandle[], positions: Uint32Array): MapHandle | Code;
  evaluate(words: Uint8Array, wordLengths: Uint32Array, texts: Uint8Array, textLengths: Uint32Array): MapHandle | Code;
  joinNew(): JoinHandle | Code;
  joinAdd(join: JoinHandle, map: MapHandle, line: number, column: number): Code;
  joinFinish(join: JoinHandle): MapHandle | Code;

  // ---- building ----

  builderNew(): BuilderHandle | Code;
  /** `words[0]` is the id. */
  builderAddName(builder: BuilderHandle, name: Text): Code;
  builderAddSource(builder: BuilderHandle, path: Text, content: Text | null): Code;
  builderAddTokens(builder: BuilderHandle, tokens: Uint32Array): Code;
  builderSetFile(builder: BuilderHandle, file: Text): Code;
  builderFinish(builder: BuilderHandle): MapHandle | Code;

  // ---- texts ----

  /** The code is read of the last two forms alone, and a limit of bytes of the others. */
  write(map: MapHandle, form: Form, code: Text, limit?: number): string | Code;
  /** The same as bytes. */
  writeBytes(map: MapHandle, form: Form, code: Text, limit?: number): Uint8Array | Code;
  encodeMappings(tokens: Uint32Array, limit?: number): string | Code;
  /** 103 if the code names none. The language is 0 for JavaScript, 1 for CSS. */
  sourceMappingURL(code: Text, language: number): string | Code;
  /** 103 if it is no data URL of JSON. */
  decodeDataURL(url: Text): string | Code;

  // ---- errors, from the words of `fault` or of a mend ----

  message(fault: Uint32Array): string;
  placeMessage(fault: Uint32Array): string;
  mendMessage(mend: Uint32Array): string;
  /** The actual cause in the text that a call refused with this fault, where the message names another; else "". */
  reasonMessage(text: Text, fault: Uint32Array): string;
  codeName(code: Code): string;
}

declare const native: Native;
export default native;

/**
 * Resolves stack traces on servers: it compiles the maps of a store, and holds them within bounds.
 *
 * A frame's own line and column count from 1, as traces print them. All else counts from 0, and columns are in UTF-16 code units. The
 * answers of lookups are those of the library, which are proved; the resolver itself is tested.
 *
 * @example
 * const { Resolver, BESIDE } = require("junketscarp/resolver");
 * const resolver = new Resolver("dist", "https://example.com/static/", { cache: BESIDE });
 * resolver.resolveText("    at t (https://example.com/static/app.js:1:14)"); // "    at t (src/a.ts:2:3)"
 */

/** The value of `cache` by which compiled maps are written beside their maps, as X.map.smc. */
export const BESIDE: unique symbol;

/**
 * What has codes and maps: a folder (`Folder`), or any object with this method. A name has slashes between its parts, none of which is
 * empty, `.` or `..`. If it returns a promise, only the calls whose names end in `Async` can be used. What it throws leaves frames
 * unchanged, with Reason.STORE; if an answer takes longer than the limit of seconds, a later trace asks again.
 *
 * @example
 * const store = { get: async (name) => new Uint8Array(await (await fetch(`http://maps.internal/${name}`)).arrayBuffer()) };
 */
export interface Store {
  get(name: string): Uint8Array | null | undefined | PromiseLike<Uint8Array | null | undefined>;
}

/**
 * A folder as a store. It refuses names that resolve outside of it: by `..`, or by a link of the file or of a folder above it. Nobody else
 * may change links in it meanwhile.
 *
 * @example
 * new Folder("dist").get("app.js"); // a Buffer, or null
 */
export class Folder implements Store {
  /** Throws an error of the system if the folder does not exist. */
  constructor(path: string);
  /** Its path, links followed. */
  readonly path: string;
  /** The bytes of a plain file; null if there is none. Throws TooLargeError above a limit of bytes, an error if the name is refused, and
   *  errors of the system. */
  get(name: string, limit?: number): Uint8Array | null;
}

/** Why a frame is not resolved; `detail` has more. */
export const Reason: {
  /** No base contains its URL. */
  readonly OUTSIDE: 'outside';
  /** A path with `..`, a control character or a backslash, one that is too long, or a link out of the folder; or an invalid debug id. */
  readonly REFUSED: 'refused';
  /** The store has neither the code nor a map of its name. */
  readonly NOT_THERE: 'not there';
  /** The store has the code, but no map of it. */
  readonly NO_MAP: 'no map';
  /** The map cannot be read. */
  readonly BAD_MAP: 'bad map';
  /** The map has another debug id. */
  readonly OTHER_BUILD: 'other build';
  /** The code or the map has more bytes than the limit. */
  readonly TOO_LARGE: 'too large';
  /** The map has no mapping at the position. */
  readonly NOTHING: 'nothing';
  /** The mapping at the position has no source. */
  readonly UNMAPPED: 'unmapped';
  /** The line or column is 0, or above 4294967295. */
  readonly POSITION: 'position';
  /** The trace has more frames than the limit. */
  readonly FRAMES: 'frames';
  /** The trace took longer than the limit before this frame. */
  readonly TIME: 'time';
  /** The store failed. The next trace asks it again. */
  readonly STORE: 'store';
};
export type Reason = (typeof Reason)[keyof typeof Reason];

/** What a resolver takes and holds. A trace above its limit of bytes is refused; frames past the other limits stay as they are. */
export interface Limits {
  /** Bytes of a trace, in UTF-8: 2 ** 20. */
  readonly traceBytes: number;
  /** Frames of a trace that are looked up: 1000. */
  readonly frames: number;
  /** Seconds for a trace: 10. Work that has begun (reading one map) is completed, and held for the next trace. */
  readonly seconds: number;
  /** Bytes of a code, which is read for the comment that names its map: 64 * 2 ** 20. */
  readonly codeBytes: number;
  /** Bytes of the text of a map: 256 * 2 ** 20. */
  readonly mapBytes: number;
  /** Bytes of compiled maps that are held: 256 * 2 ** 20. Up to 64 maps more are in use for each trace that is resolved. */
  readonly heldBytes: number;
  /** Compiled maps that are held: 4096. */
  readonly heldMaps: number;
  /** Codes that are known to have no map: 4096. */
  readonly heldMissing: number;
  /** Seconds after which held maps, and held results that there is no map, are searched again: 60. */
  readonly heldSeconds: number;
  /** Bytes of contents that are held, with their lines: 32 * 2 ** 20. */
  readonly heldContextBytes: number;
}

/** A place in generated code that a trace names: the URL or path of the code, and a line and column that count from 1, the column in
 *  UTF-16 code units. `start` and `end` are where the place stands in the text, in UTF-16 units. */
export interface Frame {
  url: string;
  line: number;
  column: number;
  start: number;
  end: number;
}

/**
 * What a frame resolves to: the source, as the map lists it and with the source root before it, the original line and column, which count
 * from 0, and the name of the mapping, which is that of a function where the tool that made the map wrote one. For an unresolved frame
 * these are null, and `reason` and `detail` state why.
 */
export class Resolved {
  private constructor();
  readonly frame: Frame;
  readonly source: string | null;
  readonly line: number | null;
  readonly column: number | null;
  readonly name: string | null;
  readonly reason: Reason | null;
  readonly detail: string;
  /** The name of the map in the store. */
  readonly map: string | null;
  /** The debug id by which it was asked for. */
  readonly debugId: string | null;
  /** The place as traces print it, with a line and a column from 1; null if the frame is not resolved. A source with a quote, a control
   *  character or a mark of text direction is a JSON string. */
  readonly place: string | null;
}

/** Lines of an original source, without their ends. `first` is the number of the first one, and `line` that of the position; lines count
 *  from 0. */
export interface Context {
  first: number;
  line: number;
  lines: string[];
}

/**
 * The lines of a text, which is gone over once. Lines count from 0, and end in a line feed, a carriage return, both, U+2028 or U+2029.
 *
 * @example
 * new Lines("a\nb\r\nc").around(2, 1); // { first: 1, line: 2, lines: ["b", "c"] }
 */
export class Lines {
  constructor(text: string);
  readonly length: number;
  /** A line without its end. Throws RangeError if there is no such line. */
  line(number: number): string;
  /** A line with up to `count` lines before and behind it. Throws RangeError as `line`, and of a count below 0. */
  around(number: number, count: number): Context;
}

/** A trace, a file or a map with more bytes than the limit. `length` is how many there are, or were read. */
export class TooLargeError extends Error {
  constructor(what: string, length: number, limit: number);
  readonly length: number;
  readonly limit: number;
}

/** The disjoint frames of a trace or a log, in order.
 *
 * @example
 * [...framesIn("g@https://h/b.js:2:1")]; // [{ url: "https://h/b.js", line: 2, column: 1, start: 2, end: 20 }]
 */
export function framesIn(text: string): Generator<Frame, void, undefined>;

/** A text with the places of these frames, in order, replaced by the original ones; all else stays. */
export function replaceFrames(text: string, frames: Iterable<Resolved>): string;

/** Counts since the resolver was made, and what it holds. `hits`, `misses`, `waits` (for what is read already), `missingHits`, `expired`
 *  and `evictions` are of its table of maps, in which a trace asks once for each code; `bytesHeld`, `held` and `missingHeld` are what that
 *  has now. `compiledUsed`, `compiledStale`, `compiledDamaged`, `compiledMade` and `compiledUnwritten` are of compiled maps,
 *  `contextBytesHeld` of contents. `traces`, `tracesRefused`, `frames` and `resolved` are those that were asked for, and `notResolved..`
 *  frames by their reason, as `notResolvedNoMap`: all of them and `resolved` sum up to `frames`. */
export type Stats = Record<string, number>;

export interface ResolverOptions {
  /** Where compiled maps are kept, which are made when first needed: BESIDE their maps, for which the store is a folder that can be
   *  written; the path of a folder, which is made; null, the default, for nowhere. X.map.smc beside X.map is used if it was made from as
   *  many bytes as X.map has, and its file is no older (unless `alwaysHashes` is set) or its SHA-256 is that of X.map. */
  readonly cache?: typeof BESIDE | string | null | undefined;
  readonly limits?: Partial<Limits> | undefined;
  /** If the map with the code's name and `.map` exists, it is taken, and the code is not read. */
  readonly besideFirst?: boolean | undefined;
  /** The name of the map of a debug id, in which `{}` stands for the id in lower case: `{}.map`. */
  readonly debugIdName?: string | undefined;
  readonly alwaysHashes?: boolean | undefined;
  /** Seconds that never go back. */
  readonly clock?: (() => number) | undefined;
}

/** The debug ids of codes, by their URLs as frames name them. */
export type DebugIds = Readonly<Record<string, string>>;

/**
 * A resolver over a store: the path of a folder, or a `Store`.
 *
 * `base` is the URL or path that stands for the store, or several, each with its folder of the store; the longest match counts. A
 * query or fragment of a URL does not count, and neither does the case of its host; `file:` URLs are paths. Nothing is asked for over a
 * network.
 *
 * A code's map is the one that its last comment `sourceMappingURL` names, in the store or as a data URL, else the one with its name and
 * `.map`. With a debug id it is the map named by `debugIdName`, else that of the URL, but no map with another debug id.
 *
 * Calls whose names end in `Async` ask for one map once, however many traces need it. A map is read and compiled on the thread that calls,
 * which takes some 10 ms for each MB the first time.
 *
 * The constructor throws TypeError of BESIDE with a store that is no folder, of unknown limits and of options of other names, RangeError
 * of limits below 0, and an error if the path or a base cannot be used.
 *
 * @example
 * const resolver = new Resolver("dist", { "https://example.com/static/": "js" }, { limits: { frames: 100 } });
 * const { source, line, column, name, reason } = resolver.resolveFrame("https://example.com/static/app.js?v=1", 1, 14);
 */
export class Resolver {
  constructor(store: string | Store, base?: string | Readonly<Record<string, string>>, options?: ResolverOptions);
  readonly limits: Limits;

  /** What a place in a code resolves to, by its URL or path, and its line and column, which count from 1. Throws TypeError for a line or a
   *  column that is no integer, and if the store returns a promise, or anything but a Uint8Array, null or undefined; so do the calls
   *  below. */
  resolveFrame(url: string, line: number, column: number, debugId?: string | null): Resolved;
  resolveFrameAsync(url: string, line: number, column: number, debugId?: string | null): Promise<Resolved>;

  /** What each frame of a trace resolves to, in order. Throws TooLargeError if the trace has more bytes than the limit. */
  resolve(text: string | Uint8Array, debugIds?: DebugIds): Resolved[];
  resolveAsync(text: string | Uint8Array, debugIds?: DebugIds): Promise<Resolved[]>;

  /** A trace with the place of each frame that is resolved replaced by the original one, SOURCE:LINE:COLUMN, which count from 1; all else
   *  stays to the byte. Throws TooLargeError, as `resolve`. Extract a trace from a JSON text first.
   *
   * @example
   * resolver.resolveText(Buffer.from("f@app.js:1:14\n")).toString(); // "f@src/a.ts:2:3\n"
   */
  resolveText(text: string, debugIds?: DebugIds): string;
  resolveText(text: Uint8Array, debugIds?: DebugIds): Uint8Array;
  resolveTextAsync(text: string, debugIds?: DebugIds): Promise<string>;
  resolveTextAsync(text: Uint8Array, debugIds?: DebugIds): Promise<Uint8Array>;

  /** The line of a resolved frame in its source, with up to so many lines (3) before and behind it; null if the frame is not resolved, or
   *  the map has no content of the source or no such line, or has changed. Throws RangeError of a number below 0. */
  context(found: Resolved, lines?: number): Context | null;
  contextAsync(found: Resolved, lines?: number): Promise<Context | null>;

  stats(): Stats;
  /** Releases all that is held: later requests search again. */
  clear(): void;
}

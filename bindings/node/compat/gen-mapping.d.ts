/**
 * The API of @jridgewell/gen-mapping 0.3. Lines count from 1 in mappings, and from 0 in segments; columns count from 0.
 *
 * A line or a column that is no integer from 0 (lines of mappings: 1) to 4294967295 is a RangeError, which names the value, and the map
 * stays unchanged.
 */

import type { SourceMapInput } from "./trace-mapping.js";
import type { DecodedSourceMap, EncodedSourceMap, Pos } from "./types.js";

export type { DecodedSourceMap, EncodedSourceMap, Pos, SourceMapSegment } from "./types.js";

export type Options = { file?: string | null; sourceRoot?: string | null };

export type Mapping =
  | { generated: Pos; source: undefined; original: undefined; name: undefined }
  | { generated: Pos; source: string; original: Pos; name: string }
  | { generated: Pos; source: string; original: Pos; name: undefined };

/** What is added: a generated position, and what it comes from. The content counts only with the first mapping of its source. */
export type NewMapping =
  | { generated: Pos; source?: null; original?: null; name?: null; content?: null }
  | { generated: Pos; source: string; original: Pos; name?: string | null; content?: string | null };

/**
 * A map that is being made.
 *
 * @example
 * const map = new GenMapping({ file: "out.js" });
 * addMapping(map, { generated: { line: 1, column: 4 }, source: "a.ts", original: { line: 3, column: 0 }, name: "f" });
 * toEncodedMap(map).mappings; // "IAEAA"
 */
export declare class GenMapping {
  file: string | null | undefined;
  sourceRoot: string | null | undefined;
  constructor(options?: Options);
}

/** Adds a mapping by its numbers, lines from 0. It may come before mappings that are there. */
export declare function addSegment(
  map: GenMapping,
  genLine: number,
  genColumn: number,
  source?: null,
  sourceLine?: null,
  sourceColumn?: null,
  name?: null,
  content?: null,
): void;
export declare function addSegment(
  map: GenMapping,
  genLine: number,
  genColumn: number,
  source: string,
  sourceLine: number,
  sourceColumn: number,
  name?: string | null,
  content?: string | null,
): void;

/** Adds a mapping, lines from 1. It may come before mappings that are there. */
export declare function addMapping(map: GenMapping, mapping: NewMapping): void;

/** The same, unless the mapping repeats the one before it on its line. Mappings have to come in order. */
export declare const maybeAddSegment: typeof addSegment;
export declare const maybeAddMapping: typeof addMapping;

/** Sets the content of a source; null removes it. */
export declare function setSourceContent(map: GenMapping, source: string, content: string | null): void;

/** Sets whether debuggers may skip a source; by default they may. */
export declare function setIgnore(map: GenMapping, source: string, ignore?: boolean): void;

/** The value of the map, with decoded or encoded mappings. The lists are copies. */
export declare function toDecodedMap(map: GenMapping): DecodedSourceMap;
export declare function toEncodedMap(map: GenMapping): EncodedSourceMap;

/** The same by their names in versions 0.1 and 0.2, which @ampproject/remapping 2.2.0 requires. */
export declare const decodedMap: typeof toDecodedMap;
export declare const encodedMap: typeof toEncodedMap;

/** A map that continues another one, which stays unchanged. Throws as TraceMap and its calls do. */
export declare function fromMap(input: SourceMapInput): GenMapping;

/** All mappings in order, lines from 1. */
export declare function allMappings(map: GenMapping): Mapping[];

/**
 * The API of @jridgewell/trace-mapping 0.3. Lines count from 1 in positions, and from 0 in segments; columns count from 0.
 *
 * Mappings are read when they are first needed. The calls that need them throw a SourceMapError if a mappings text has a fault that is not
 * mended, and a RangeError or a TypeError if a decoded segment has an invalid number. `mends` lists what was mended.
 */

import type {
  DecodedSourceMap,
  EncodedSourceMap,
  Ro,
  SectionedSourceMap,
  SourceMapSegment,
  SourceMapV3,
} from "./types.js";
import type { Mend } from "../lib/index.js";

export type { DecodedSourceMap, EncodedSourceMap, Section, SectionedSourceMap, SourceMapSegment } from "./types.js";
export type { Mend } from "../lib/index.js";

export type SourceMapInput = string | Ro<EncodedSourceMap> | Ro<DecodedSourceMap> | TraceMap;
export type SectionedSourceMapInput = SourceMapInput | Ro<SectionedSourceMap>;

export type OriginalMapping = { source: string | null; line: number; column: number; name: string | null };
export type { OriginalMapping as Mapping };
export type InvalidOriginalMapping = { source: null; line: null; column: null; name: null };
export type GeneratedMapping = { line: number; column: number };
export type InvalidGeneratedMapping = { line: null; column: null };
export type Bias = typeof GREATEST_LOWER_BOUND | typeof LEAST_UPPER_BOUND;
export type Needle = { line: number; column: number; bias?: Bias };
export type SourceNeedle = { source: string; line: number; column: number; bias?: Bias };

export type EachMapping =
  | {
      generatedLine: number;
      generatedColumn: number;
      source: null;
      originalLine: null;
      originalColumn: null;
      name: null;
    }
  | {
      generatedLine: number;
      generatedColumn: number;
      source: string | null;
      originalLine: number;
      originalColumn: number;
      name: string | null;
    };

/** The mapping at the column, or otherwise the first one after it. */
export declare const LEAST_UPPER_BOUND: -1;
/** The mapping at the column, or otherwise the last one before it. */
export declare const GREATEST_LOWER_BOUND: 1;

/**
 * A map to look things up in.
 *
 * @example
 * const map = new TraceMap('{"version":3,"sources":["a.ts"],"names":["f"],"mappings":"AAEA,IAAIA"}', "https://x.org/js/a.js.map");
 * originalPositionFor(map, { line: 1, column: 5 }); // { source: "https://x.org/js/a.ts", line: 3, column: 4, name: "f" }
 */
export declare class TraceMap {
  version: SourceMapV3["version"];
  file: SourceMapV3["file"];
  names: string[];
  sourceRoot: SourceMapV3["sourceRoot"];
  sources: SourceMapV3["sources"];
  sourcesContent: SourceMapV3["sourcesContent"];
  ignoreList: SourceMapV3["ignoreList"];
  /** The sources, resolved against the source root, and that against the URL of the map. */
  resolvedSources: string[];
  /**
   * Takes a JSON text or its value, with encoded or decoded mappings; of a TraceMap it is that map. Throws a SyntaxError if the text is
   * not JSON, and a TypeError if the map has no list of sources, or mappings that are neither a text nor lines.
   */
  constructor(map: SourceMapInput, mapUrl?: string | null);
}

/**
 * A TraceMap of any map: one with sections, which may have sections, too, becomes one without. A section ends where the next one
 * begins, and its sources are resolved. Throws as TraceMap does, and a RangeError if a section begins at no place.
 */
export declare const FlattenMap: {
  new (map: SectionedSourceMapInput, mapUrl?: string | null): TraceMap;
  (map: SectionedSourceMapInput, mapUrl?: string | null): TraceMap;
};
/** The older name of FlattenMap. */
export declare const AnyMap: typeof FlattenMap;

/** The mappings as a text. */
export declare function encodedMappings(map: TraceMap): string;
/** The mappings as lines of segments, sorted by column. The array is kept by the map: do not change it. */
export declare function decodedMappings(map: TraceMap): readonly (readonly Readonly<SourceMapSegment>[])[];
/** The value of the map with encoded or decoded mappings, for JSON.stringify or another library. */
export declare function encodedMap(map: TraceMap): EncodedSourceMap;
export declare function decodedMap(map: TraceMap): Omit<DecodedSourceMap, "mappings"> & {
  mappings: readonly SourceMapSegment[][];
};
/** A TraceMap of a map whose decoded lines are sorted already. Nothing checks that they are. */
export declare function presortedDecodedMap(map: DecodedSourceMap, mapUrl?: string): TraceMap;

/** The segment that answers for a generated line and column, both from 0; null if there is none. A line that is no integer from 0 is a
 *  TypeError, or has none. */
export declare function traceSegment(map: TraceMap, line: number, column: number): Readonly<SourceMapSegment> | null;

/**
 * The original position of a generated one. Throws an Error if the line is below 1 or the column below 0. A line that is no integer is a
 * TypeError, or has no answer.
 */
export declare function originalPositionFor(map: TraceMap, needle: Needle): OriginalMapping | InvalidOriginalMapping;

/**
 * A generated position of an original one, on its line of the source. The source is named as it is listed or resolved. Throws an Error
 * if the line is below 1 or the column below 0.
 */
export declare function generatedPositionFor(
  map: TraceMap,
  needle: SourceNeedle,
): GeneratedMapping | InvalidGeneratedMapping;

/** All of them, in the order of the code. The bias is LEAST_UPPER_BOUND if none is given. Throws as generatedPositionFor does. */
export declare function allGeneratedPositionsFor(map: TraceMap, needle: SourceNeedle): GeneratedMapping[];

/** Calls back with each mapping, in the order of the code. */
export declare function eachMapping(map: TraceMap, callback: (mapping: EachMapping) => void): void;

/** The content of a source, which is named as it is listed or resolved; null if it is not known. */
export declare function sourceContentFor(map: TraceMap, source: string): string | null;

/** Whether debuggers may skip a source, by the map's list. */
export declare function isIgnored(map: TraceMap, source: string): boolean;

/** What was mended in the mappings, in the order in which it was met: ids out of range, unsorted lines, truncated sections. The package
 *  does not have this. */
export declare function mends(map: TraceMap): Mend[];

/**
 * The API of @jridgewell/source-map 0.3 over this library: the classes of source-map, over trace-mapping and gen-mapping.
 *
 * @example
 * new SourceMapConsumer(json, null).originalPositionFor({ line: 1, column: 1041 }).source;
 */

import * as gen from "./gen-mapping";
import * as tracing from "./trace-mapping";

type Tail<Call extends (map: never, ...rest: never[]) => unknown> = Call extends (map: never, ...rest: infer Rest) => unknown ? Rest : never;

export declare class SourceMapConsumer {
  readonly version: number;
  readonly file: tracing.TraceMap["file"];
  readonly names: tracing.TraceMap["names"];
  readonly sourceRoot: tracing.TraceMap["sourceRoot"];
  /** Resolved, as those of `resolvedSources`. */
  readonly sources: tracing.TraceMap["resolvedSources"];
  readonly sourcesContent: tracing.TraceMap["sourcesContent"];
  constructor(map: Parameters<typeof tracing.AnyMap>[0], mapUrl?: string | null);
  static fromSourceMap(generator: SourceMapGenerator | SourceMapConsumer, mapUrl?: string | null): SourceMapConsumer;
  readonly mappings: string;
  originalPositionFor(...needle: Tail<typeof tracing.originalPositionFor>): ReturnType<typeof tracing.originalPositionFor>;
  generatedPositionFor(...needle: Tail<typeof tracing.generatedPositionFor>): ReturnType<typeof tracing.generatedPositionFor>;
  allGeneratedPositionsFor(...needle: Tail<typeof tracing.allGeneratedPositionsFor>): ReturnType<typeof tracing.allGeneratedPositionsFor>;
  hasContentsOfAllSources(): boolean;
  /** Throws an Error for a source that is not listed, unless it is to be null. */
  sourceContentFor(source: string, nullOnMissing?: boolean): string | null;
  eachMapping(callback: (mapping: tracing.EachMapping) => void, context?: unknown): void;
  /** Does nothing. */
  destroy(): void;
}

export declare class SourceMapGenerator {
  constructor(options?: gen.GenMapping | { file?: string | null; sourceRoot?: string | null });
  static fromSourceMap(consumer: SourceMapConsumer): SourceMapGenerator;
  /** Adds a mapping, unless it adds no information. */
  addMapping(mapping: Parameters<typeof gen.maybeAddMapping>[1]): void;
  setSourceContent(source: string, content: string | null): void;
  toJSON(): ReturnType<typeof gen.toEncodedMap>;
  toString(): string;
  toDecodedMap(): ReturnType<typeof gen.toDecodedMap>;
}

/**
 * The API of the package source-map 0.7 over this library: as version 0.6, but consumers come as promises, and have to be destroyed.
 *
 * @example
 * const found = await SourceMapConsumer.with(json, null, (consumer) => consumer.originalPositionFor({ line: 1, column: 1041 }));
 */

import type { RawIndexMap, RawSourceMap, SourceMapConsumer as Consumer, SourceMapGenerator } from "./source-map";
export * from "./source-map";

/** A consumer of a map, or of an indexed map. After `destroy` lookups may throw. */
export interface SourceMapConsumer extends Consumer {}

/** Makes promises of consumers, which are rejected where version 0.6 throws. */
export interface SourceMapConsumerConstructor {
  prototype: SourceMapConsumer;
  GENERATED_ORDER: number;
  ORIGINAL_ORDER: number;
  GREATEST_LOWER_BOUND: number;
  LEAST_UPPER_BOUND: number;
  new (sourceMap: RawSourceMap | RawIndexMap | string | SourceMapConsumer, sourceMapURL?: string | null): Promise<SourceMapConsumer>;
  /** There is nothing to make ready: what is given is not read. */
  initialize(mappings?: Record<string, unknown>): void;
  fromSourceMap(generator: SourceMapGenerator, sourceMapURL?: string | null): Promise<SourceMapConsumer>;
  /** What `use` makes of a consumer, which is destroyed then. */
  with<Result>(
    sourceMap: RawSourceMap | RawIndexMap | string,
    sourceMapURL: string | null | undefined,
    use: (consumer: SourceMapConsumer) => Result | Promise<Result>,
  ): Promise<Result>;
}
export declare const SourceMapConsumer: SourceMapConsumerConstructor;

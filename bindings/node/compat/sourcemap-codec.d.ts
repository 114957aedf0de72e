/** The API of @jridgewell/sourcemap-codec 1.4. */

import type { SourceMapSegment } from "./types.js";

export type { SourceMapSegment } from "./types.js";
export type SourceMapLine = SourceMapSegment[];
export type SourceMapMappings = SourceMapLine[];

/**
 * The lines of a mappings text, each a list of segments, sorted by column. Throws a SourceMapError of the first fault of the text, with
 * its place.
 *
 * @example
 * decode("AAEA,IAAIA;"); // [[[0, 0, 2, 0], [4, 0, 2, 4, 0]], []]
 */
export declare function decode(mappings: string): SourceMapMappings;

/**
 * The mappings text of lines of segments, in the order in which they stand. Throws a RangeError if a segment has not 1, 4 or 5 numbers,
 * or has one that is no integer from 0 to 4294967295 (an id: to 4294967294), and a TypeError if it has a value that is no number.
 */
export declare function encode(
  decoded: SourceMapMappings | readonly (readonly Readonly<SourceMapSegment>[])[],
): string;

/** The API of @ampproject/remapping 2.2. */

import type * as maps from "./types.js";
import type { SourceMapInput as Input } from "./trace-mapping.js";

/**
 * Traces the mappings of a map through the maps of its sources, and theirs, down to the original sources.
 *
 * The input is a map, or several: the last step first, each with one source, whose map is the next one. The loader is called for each
 * source (of the last map of several) and returns its map, or nothing for an original source. A boolean in place of options is
 * `excludeContent`.
 *
 * By default the map is that of the package. Where the map of a source has nothing for a place, the mapping is dropped: its code then
 * counts as part of the mapping before, which may be that of another module. Of consecutive mappings that resolve to one place only the
 * first stays, with its name or without one. With `exact` it is the map that `SourceMap.remap` makes, where each mapping stays: one to a
 * place before all mappings of its line resolves to what the first of these does, and one that resolves to nothing is unmapped.
 *
 * Throws an Error if a map of several but the last has more than one source, and what TraceMap and its calls throw; with `exact` also a
 * TypeError if a text has half a surrogate pair.
 *
 * @example
 * remapping([minifiedMap, compiledMap], () => null).toString();
 */
declare function remapping(
  input: remapping.SourceMapInput | remapping.SourceMapInput[],
  loader: remapping.SourceMapLoader,
  options?: boolean | remapping.Options,
): remapping.SourceMap;

declare namespace remapping {
  export { remapping as default };
  export type SourceMapInput = Input;
  export type SourceMapSegment = maps.SourceMapSegment;
  export type EncodedSourceMap = maps.EncodedSourceMap;
  export type RawSourceMap = maps.EncodedSourceMap;
  export type DecodedSourceMap = maps.DecodedSourceMap;

  /** What a loader gets. It may set `source`, `content` and `ignore`. */
  export type LoaderContext = {
    /** The source whose map lists this one, or "". */
    readonly importer: string;
    /** How many maps deep it is, from 1. */
    readonly depth: number;
    /** The path of the source, by which it is listed, and against which the sources of its map are resolved. */
    source: string;
    /** The content of an original source; undefined for that which its map has. */
    content: string | null | undefined;
    /** Whether debuggers may skip an original source; by default as in its map. */
    ignore?: boolean;
  };

  export type SourceMapLoader = (file: string, context: LoaderContext) => SourceMapInput | null | undefined | void;

  export type Options = {
    /** Omits the contents of sources. */
    excludeContent?: boolean;
    /** Returns mappings as lines of segments, not as a text. */
    decodedMappings?: boolean;
    /** Returns the map that the library makes. The package does not have this. */
    exact?: boolean;
  };

  /** The map that is made. */
  export interface SourceMap {
    version: 3;
    file?: string | null;
    mappings: EncodedSourceMap["mappings"] | DecodedSourceMap["mappings"];
    names: string[];
    ignoreList?: number[];
    sourceRoot?: string;
    sources: (string | null)[];
    sourcesContent?: (string | null)[];
    /** The JSON text. */
    toString(): string;
  }
}

export = remapping;

// What the maps of all drop-in modules look like.

/**
 * A mapping of a generated column, from 0: alone it means that the code from there on has no source; else it has the id of a source, a line
 * and a column there, all from 0, and the id of a name if it has one.
 */
export type SourceMapSegment =
  | [number]
  | [number, number, number, number]
  | [number, number, number, number, number];

export interface SourceMapV3 {
  version: 3;
  file?: string | null;
  names: string[];
  sourceRoot?: string;
  sources: (string | null)[];
  sourcesContent?: (string | null)[];
  ignoreList?: number[];
}

/** A map whose mappings are a text. */
export interface EncodedSourceMap extends SourceMapV3 {
  mappings: string;
}

/** A map whose mappings are lines of segments. */
export interface DecodedSourceMap extends SourceMapV3 {
  mappings: SourceMapSegment[][];
}

/** A map of a part of a code, and where that begins, from 0. */
export interface Section {
  offset: { line: number; column: number };
  map: string | EncodedSourceMap | DecodedSourceMap | SectionedSourceMap;
}

export interface SectionedSourceMap {
  version: 3;
  file?: string | null;
  sections: Section[];
}

/** The type with all its arrays and members read-only, if you have it so. */
export type Ro<T> = T extends (infer Entry)[]
  ? readonly Ro<Entry>[] | T
  : T extends object
    ? { readonly [Member in keyof T]: Ro<T[Member]> } | T
    : T;

/** A line from 1 and a column from 0. */
export interface Pos {
  line: number;
  column: number;
}

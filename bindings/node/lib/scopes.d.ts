/** The scopes of maps. The rules of index.d.ts for numbers, texts and errors apply here too. */

import type { Bias, CompiledMap, MapInput, Position, SourceMap, Text } from "./index.js";

/** What is wrong with an item of a text of scopes. */
export type ScopesFault =
  /** A byte is no base64 digit. */
  | "NOT_A_DIGIT"
  /** Its last number ends in a digit after which another has to follow. */
  | "CUT_SHORT"
  /** A number has more than seven digits, or with it a line, a column or a source is above its limit. */
  | "TOO_LARGE"
  /** It is empty, or lacks a number. */
  | "MISSING_NUMBER"
  /** An index refers to no name, scope or value. */
  | "BAD_INDEX"
  /** It is an end, variables, values, sub-ranges or a call site, but what it needs is not open. */
  | "NOTHING_OPEN"
  /** A source without scopes comes within the scopes of another. */
  | "NOT_CLOSED"
  /** More than 1024 scopes or ranges are nested. */
  | "TOO_DEEP"
  /** The text ends, and a scope or a range has no end. */
  | "LEFT_OPEN"
  /** It is sub-ranges of a value that has some already. */
  | "SPLIT_TWICE";

/** How many sources have a tree of scopes or none, and how many scopes and ranges there are. */
export interface ScopesCounts {
  sources: number;
  scopes: number;
  ranges: number;
}

/** Where in a source a function was called. */
export interface CallSite {
  readonly sourceId: number;
  readonly line: number;
  readonly column: number;
}

/** A scope of a source: a function, a block, a class or the like, from `start` up to but not including `end`. `name` and `kind` are the
 *  texts of their ids among the names of the map. Missing values are null, and so are unknown texts. */
export interface OriginalScope {
  readonly index: number;
  readonly sourceId: number;
  readonly start: Readonly<Position>;
  readonly end: Readonly<Position>;
  readonly nameId: number | null;
  readonly name: string | null;
  readonly kindId: number | null;
  /** What it is, as "function". */
  readonly kind: string | null;
  /** Whether a call of it makes a frame of the stack, as that of a function does. */
  readonly isStackFrame: boolean;
  /** The index of the innermost scope around it. */
  readonly parent: number | null;
}

/** A range of the generated code, from `start` up to but not including `end`. Missing values are null. */
export interface GeneratedRange {
  readonly index: number;
  readonly start: Readonly<Position>;
  readonly end: Readonly<Position>;
  /** The index of the scope that it is the code of. */
  readonly definition: number | null;
  /** Whether a call of it makes a frame of the stack. */
  readonly isStackFrame: boolean;
  /** Whether the source has no frame for it, as for a generated helper. */
  readonly isHidden: boolean;
  /** Where it was called, if it is the body of a function that was inlined. */
  readonly call: CallSite | null;
  /** The index of the innermost range around it. */
  readonly parent: number | null;
}

/** A frame of the source: the name of its function, by its id and its text, and the index of the scope that is the function. What is not
 *  there is null, and so is a text that is not known. */
export interface ScopeFrame {
  readonly nameId: number | null;
  readonly name: string | null;
  readonly scope: number | null;
  /** Where the frame is; null for the first one, which is at the position that `SourceMap.trace` returns. */
  readonly call: CallSite | null;
}

/** The frames of the source that a frame of a stack trace stands for, from the inside out. */
export interface ScopeFrames {
  readonly frames: readonly ScopeFrame[];
  /** Whether the source has no such frame, as for a generated helper: a stack trace omits it. */
  readonly isHidden: boolean;
}

/** A variable of a scope, by the id and the text of its name. A text that is not known is null. */
export interface Variable {
  readonly nameId: number;
  readonly name: string | null;
}

/** The expression for the value of a variable, by the id of the name that it is, and its text; null if that is not known. */
export interface VariableValue {
  readonly valueId: number;
  readonly value: string | null;
}

/** A variable with its value at a position; nulls if it has none there. */
export interface ScopeVariable extends Variable {
  readonly valueId: number | null;
  readonly value: string | null;
}

/** A scope that a generated position is in, by its index, and its variables. */
export interface ScopeChainEntry {
  readonly scope: number;
  /** The index of the innermost range there that is the code of the scope; if it is null, no variable has a value. */
  readonly range: number | null;
  readonly variables: readonly ScopeVariable[];
}

/** A frame of the source with its place. `name` is null if the function has none, or its text is not known. The first frame is at the
 *  position that `SourceMap.trace` returns: `source`, `line` and `column` are null if the map has none there. Any other frame is at its
 *  call: `line` and `column` are numbers, and `source` is null if the map lacks it. */
export interface SourceFrame {
  readonly name: string | null;
  readonly source: string | null;
  readonly line: number | null;
  readonly column: number | null;
}

/** The frames of the source, from the inside out. */
export interface SourceFrames {
  /** None where `isHidden`, and where neither ranges nor the map know the position. */
  readonly frames: readonly SourceFrame[];
  /** Whether the frame is that of a helper which the source does not have: a stack trace leaves it out. */
  readonly isHidden: boolean;
}

/** A scope of a frame as a debugger shows it: what it is, its name, and its variables with their values. */
export interface ScopeView extends ScopeChainEntry {
  /** As "function"; null if it has none, or its text is not known. */
  readonly kind: string | null;
  readonly name: string | null;
}

/** A frame of the source with its scopes, from the inside out. */
export interface FrameView extends SourceFrame {
  readonly scopes: readonly ScopeView[];
}

/** The frames of the source with their scopes, from the inside out. */
export interface SourceView {
  /** None where `isHidden`, and where neither ranges nor the map know the position. */
  readonly frames: readonly FrameView[];
  /** Whether the frame is that of a helper which the source does not have. */
  readonly isHidden: boolean;
}

/** The value of a map of which the scopes alone are read: it may lack all else, as its mappings. */
export type ScopesValue = { readonly names?: readonly string[] | null | undefined } & (
  | { readonly version: number | string; readonly scopes?: string | null | undefined }
  | { readonly scopes: string | null }
);

/**
 * The scopes of a map, its member `scopes`: for each source a tree of its functions and blocks, and for the generated code a tree of
 * ranges, each with the scope that it is the code of. They have the names of functions in the source, the frames of calls that were
 * inlined, and the values of variables. Its calls return frozen values. Calls on freed scopes throw SourceMapError of
 * SMAP_NULL_HANDLE.
 *
 * @example
 * const [map, scopes] = [new SourceMap(json), Scopes.read(json)];
 * for (const { name, source, line, column } of scopes.trace(map, 0, 12).frames) console.log(name, source, line, column);
 */
export class Scopes {
  private constructor(made: never);
  /**
   * Reads the scopes of a map from what `new SourceMap` takes, except a SourceMap, which keeps none: that is a TypeError. Nothing else of
   * the map is checked: a value with `version` or `scopes` needs no mappings. One without the member `scopes`, or with null, has the scopes
   * of no source. Throws SourceMapError of SMAP_NOT_UTF8, SMAP_JSON_READING (without a place), SMAP_SCOPES_INDEXED, SMAP_SCOPES_NOT_TEXT or
   * SMAP_BAD_SCOPES. Of an indexed map read the map of each section, whose ranges count from the section's offset. A byte order mark is not
   * mended.
   *
   * Of a value, `scopes`, `names`, `sections` are read. Over WebAssembly the scopes of a large JSON text take as much memory as that,
   * until they are freed.
   */
  static read(json: MapInput | ScopesValue): Scopes;
  /** Reads the text of the member alone, of a map with these names, or with so many, whose texts are then not known. Names that are no
   *  list of strings are a TypeError. Throws SourceMapError of SMAP_NOT_UTF8 or SMAP_BAD_SCOPES. */
  static decode(scopes: Text, names: number | Iterable<string>): Scopes;
  free(): void;
  [Symbol.dispose](): void;

  readonly counts: ScopesCounts;
  /** A scope or a range by its index, in the order of their starts, scopes of one source after those of another; null past the last
   *  one. */
  scope(index: number): OriginalScope | null;
  range(index: number): GeneratedRange | null;
  /** All of them. Each array is made by each call. */
  readonly scopes: readonly OriginalScope[];
  readonly ranges: readonly GeneratedRange[];

  /** The innermost scope at a position of a source, by the id of the source. */
  scopeAt(source: number, line: number, column: number): OriginalScope | null;
  scopeAt(position: Position & ({ sourceId: number } | { source: number })): OriginalScope | null;
  /** The innermost scope there that is a stack frame: its function. */
  functionAt(source: number, line: number, column: number): OriginalScope | null;
  functionAt(position: Position & ({ sourceId: number } | { source: number })): OriginalScope | null;
  /** The innermost range at a generated position. */
  rangeAt(line: number, column: number): GeneratedRange | null;
  rangeAt(position: Position): GeneratedRange | null;
  /** The frames of the source that a frame of a stack trace at this generated position stands for, frame 0 first: none, and so no frame 0,
   *  where no range contains the position. */
  framesAt(line: number, column: number): ScopeFrames;
  framesAt(position: Position): ScopeFrames;
  /** The variables of a scope, by its index; null past the last one. */
  variables(scope: number): readonly Variable[] | null;
  /** The value of a variable, by its place in `variables`, in a range of the code of its scope, at a generated position in that range; null
   *  if it has none there, or there is no such variable or range. */
  valueAt(range: number, variable: number, line: number, column: number): VariableValue | null;
  valueAt(range: number, variable: number, position: Position): VariableValue | null;
  /** The scopes that a generated position is in, from the inside out, with their variables and the values there: the scope that the
   *  innermost range is the code of, and those around it. Empty where no range contains the position (there `scopeChain` answers null, as
   *  there is no frame), or that range has no scope. */
  scopeChainAt(line: number, column: number): readonly ScopeChainEntry[];
  scopeChainAt(position: Position): readonly ScopeChainEntry[];
  /** The scopes that a frame of the source is in, by its index in `framesAt`: for frame 0 those of `scopeChainAt`, for an inlined call
   *  those at its place, with the ranges around the inlined body. Null past the last frame, so for frame 0 too where no range contains the
   *  position. */
  scopeChain(frame: number, line: number, column: number): readonly ScopeChainEntry[] | null;
  scopeChain(frame: number, position: Position): readonly ScopeChainEntry[] | null;
  /** The frames of `framesAt` with the texts of their sources, by the map that has these scopes; the map resolves the first frame. Where no
   *  range contains the position, the frame is the one that the map alone knows, without a name. A `map` of another type is a TypeError. */
  trace(map: SourceMap | CompiledMap, line: number, column: number, bias?: Bias): SourceFrames;
  trace(map: SourceMap | CompiledMap, position: Position & { bias?: Bias | undefined }): SourceFrames;
  /**
   * What a debugger shows when it is paused at a generated position: the frames of `trace`, each with the scopes of `scopeChain`, and so
   * with the values of variables in it. A frame that the map alone knows has no scopes.
   *
   * @example
   * const json = { version: 3, sources: ["a.ts"], names: ["f", "a", "x"], mappings: "AAAA", scopes: "BFAAA,DC,CJA,EGAA,GD,FU" };
   * for (const { name, line, scopes } of Scopes.read(json).view(new SourceMap(json), 0, 4).frames) {
   *   console.log(name, line); // f 0
   *   for (const { variables } of scopes) for (const { name, value } of variables) console.log(name, value); // a x
   * }
   */
  view(map: SourceMap | CompiledMap, line: number, column: number, bias?: Bias): SourceView;
  view(map: SourceMap | CompiledMap, position: Position & { bias?: Bias | undefined }): SourceView;
}

/**
 * The API of source-map-support 0.5, over the hook of `junketscarp/register`. Lines count from 1, columns from 0.
 *
 * @example
 * install({ retrieveSourceMap: (source) => (source === "/app.js" ? { url: "/app.js.map", map: json } : null) });
 */

export interface Position {
  source: string;
  line: number;
  column: number;
  name?: string | null;
}

/** A map, as its text or its value, and where it is from, which its sources are found from. */
export interface UrlAndMap {
  url: string | null;
  map: string | object;
}

export interface Options {
  /** "auto" by default. It has no effect, but another word than these throws an Error. */
  environment?: "auto" | "browser" | "node";
  /** Returns the text of a file, before or instead of the file system. */
  retrieveFile?(path: string): string | null;
  overrideRetrieveFile?: boolean;
  /** Returns the map of a script, before or instead of the one that its comment names. */
  retrieveSourceMap?(source: string): UrlAndMap | null;
  overrideRetrieveSourceMap?: boolean;
  /** Reads the comments of modules as Node compiles them, not as in their files. */
  hookRequire?: boolean;
  /** Shows the line of the source of an uncaught error; true by default. */
  handleUncaughtExceptions?: boolean;
  /** Maps are kept. */
  emptyCacheBetweenOperations?: boolean;
}

export declare function install(options?: Options): void;
/** Removes what `install` was given to find files and maps. */
export declare function resetRetrieveHandlers(): void;
/** A frame that returns its original position. */
export declare function wrapCallSite<Frame extends object>(frame: Frame, state?: unknown): Frame;
/** The line of the source that the first frame of an error is on, with the column marked below it; null if it is unknown. */
export declare function getErrorSource(error: Error): string | null;
/** The original position; the given one if there is none. */
export declare function mapSourcePosition(position: Position): Position;
export declare function retrieveSourceMap(source: string): UrlAndMap | null;

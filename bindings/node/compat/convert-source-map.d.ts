/**
 * The API of convert-source-map, of versions 1 and 2: the comments of a code that name its map, and maps in them.
 *
 * @example
 * fromSource(code)?.toObject().sources; // ["a.ts"]
 */

export interface Converter {
  toJSON(space?: string | number): string;
  toBase64(): string;
  toURI(): string;
  /** The comment that has the map in it, in base64 if `encoding` is not "uri". */
  toComment(options?: { encoding?: "base64" | "uri"; multiline?: boolean }): string;
  toObject(): any;
  /** Throws an Error if the map has the member. */
  addProperty(key: string, value: unknown): Converter;
  setProperty(key: string, value: unknown): Converter;
  getProperty(key: string): any;
}

export declare function fromObject(value: object): Converter;
/** This and the next ones throw a SyntaxError for a text that is not JSON. */
export declare function fromJSON(json: string): Converter;
export declare function fromURI(uri: string): Converter;
export declare function fromBase64(base64: string): Converter;
/** Of a comment with a map in it. */
export declare function fromComment(comment: string): Converter;
/** Of a comment that names a file, which `read` gives, or which is in that folder. Throws an Error if it is not read there. */
export declare function fromMapFileComment(comment: string, read: string | ((file: string) => string)): Converter;
export declare function fromMapFileComment(comment: string, read: (file: string) => PromiseLike<string>): Promise<Converter>;
/** Of the last such comment of a code; null if there is none. */
export declare function fromSource(code: string): Converter | null;
export declare function fromMapFileSource(code: string, read: string | ((file: string) => string)): Converter | null;
export declare function fromMapFileSource(code: string, read: (file: string) => PromiseLike<string>): Promise<Converter> | null;
export declare function removeComments(code: string): string;
export declare function removeMapFileComments(code: string): string;
export declare function generateMapFileComment(file: string, options?: { multiline?: boolean }): string;
/** Each is made anew when it is asked for. */
export declare const commentRegex: RegExp;
export declare const mapFileCommentRegex: RegExp;

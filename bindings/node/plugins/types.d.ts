/** The options of the plugins for bundlers. */
export interface Options {
  /** The map of a module, as its text or its value, whose sources are relative to the folder of the module; null for the one that its last
   *  comment names, or that is beside it. */
  mapOf?(file: string): string | Uint8Array | object | null;
  /** Which file a source of the bundle's map is; null if it is none. */
  fileOf?(source: string): string | null;
}

/**
 * A plugin for Rollup, and so for Vite, that traces the maps of chunks through the maps of their modules: each position maps to what
 * `SourceMap.remap` maps it to.
 *
 * @example
 * export default { input: "app.js", plugins: [junketscarp()], output: { file: "out.js", sourcemap: true } };
 */
export declare function rollup(options?: Options): { name: string; generateBundle(output: any, bundle: any): void };

/**
 * A plugin for esbuild, which follows the comments of modules by itself: this one traces the maps of a build that are files through the
 * maps beside modules, too, or through those that it is given.
 *
 * @example
 * await esbuild.build({ entryPoints: ["app.js"], bundle: true, sourcemap: true, outfile: "out.js", plugins: [junketscarp()] });
 */
export declare function esbuild(options?: Options): { name: string; setup(build: any): void };

/**
 * A plugin for webpack 5 that traces the maps of `devtool: "source-map"` through the maps of their modules. A source such as
 * `webpack://app/./src/a.js` is a file of the context, unless `fileOf` returns another.
 *
 * @example
 * module.exports = { devtool: "source-map", plugins: [new JunketscarpPlugin()] };
 */
export declare class JunketscarpPlugin {
  constructor(options?: Options);
  apply(compiler: any): void;
}

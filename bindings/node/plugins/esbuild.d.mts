export { esbuild as default } from "./types.js";
export type { Options } from "./types.js";

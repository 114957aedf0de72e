export { rollup as default } from "./types.js";
export type { Options } from "./types.js";

export * from "./sourcemap-codec.js";

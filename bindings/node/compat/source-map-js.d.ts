/** The API of source-map-js 1: that of source-map 0.6, and `ignoreInvalidMapping` of its generator. */
export * from "./source-map";

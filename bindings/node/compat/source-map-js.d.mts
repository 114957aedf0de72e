export * from "./source-map.mjs";
export { default } from "./source-map.mjs";

export * from "junketscarp/source-map-support";
export { default } from "junketscarp/source-map-support";

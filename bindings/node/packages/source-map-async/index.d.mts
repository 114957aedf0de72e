export * from "junketscarp/source-map-async";
export { default } from "junketscarp/source-map-async";

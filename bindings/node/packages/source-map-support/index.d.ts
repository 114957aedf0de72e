export * from "junketscarp/source-map-support";

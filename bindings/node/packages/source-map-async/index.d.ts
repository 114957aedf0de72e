export * from "junketscarp/source-map-async";

export * from "junketscarp/source-map";

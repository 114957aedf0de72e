export * from "junketscarp/jridgewell-source-map";

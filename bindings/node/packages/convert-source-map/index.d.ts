export * from "junketscarp/convert-source-map";

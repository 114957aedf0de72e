export * from "junketscarp/sourcemap-codec";

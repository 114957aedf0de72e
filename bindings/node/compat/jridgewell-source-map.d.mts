export * from "./jridgewell-source-map.js";

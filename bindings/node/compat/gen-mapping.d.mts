export * from "./gen-mapping.js";

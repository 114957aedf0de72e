export * from "./trace-mapping.js";

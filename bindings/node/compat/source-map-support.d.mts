export * from "./source-map-support.js";
import * as library from "./source-map-support.js";
export default library;

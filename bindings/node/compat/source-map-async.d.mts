export * from "./source-map-async.js";
import * as library from "./source-map-async.js";
export default library;

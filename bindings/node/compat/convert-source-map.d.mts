export * from "./convert-source-map.js";
import * as library from "./convert-source-map.js";
export default library;

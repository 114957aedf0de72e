import { rollup } from "./types";
export = rollup;

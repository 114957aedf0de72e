import { esbuild } from "./types";
export = esbuild;

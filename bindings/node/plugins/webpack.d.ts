import { JunketscarpPlugin } from "./types";
export = JunketscarpPlugin;

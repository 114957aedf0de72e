import remapping from "./remapping.js";

export default remapping;
export type {
  DecodedSourceMap,
  EncodedSourceMap,
  LoaderContext,
  Options,
  RawSourceMap,
  SourceMapInput,
  SourceMapLoader,
  SourceMapSegment,
} from "./remapping.js";

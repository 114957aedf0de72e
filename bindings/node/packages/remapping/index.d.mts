import remapping from "junketscarp/remapping";

export default remapping;
export type {
  DecodedSourceMap,
  EncodedSourceMap,
  LoaderContext,
  Options,
  RawSourceMap,
  SourceMapInput,
  SourceMapLoader,
  SourceMapSegment,
} from "junketscarp/remapping";

import api from './trace-mapping.js';

export const {
  TraceMap,
  FlattenMap,
  AnyMap,
  LEAST_UPPER_BOUND,
  GREATEST_LOWER_BOUND,
  encodedMappings,
  decodedMappings,
  traceSegment,
  originalPositionFor,
  generatedPositionFor,
  allGeneratedPositionsFor,
  eachMapping,
  sourceContentFor,
  isIgnored,
  presortedDecodedMap,
  decodedMap,
  encodedMap,
  mends,
} = api;

import api from './gen-mapping.js';

export const {
  GenMapping,
  addSegment,
  addMapping,
  maybeAddSegment,
  maybeAddMapping,
  setSourceContent,
  setIgnore,
  toDecodedMap,
  toEncodedMap,
  decodedMap,
  encodedMap,
  fromMap,
  allMappings,
} = api;

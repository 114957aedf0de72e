'use strict';
// The numbers of oxc_sourcemap.h, of which `tools/check/interface javascript` makes this file.

/** Stands for no id, and for a length or a number that is not told. */
const NO_ID = 4294967295;

const Code = Object.freeze({
  OK: 0,
  VLQ_LEFTOVER: 1,
  VLQ_NO_VALUES: 2,
  VLQ_OVERFLOW: 3,
  JSON_READING: 4,
  JSON_SHAPE: 5,
  JSON_VERSION: 6,
  BAD_SEGMENT_SIZE: 7,
  BAD_SOURCE_REFERENCE: 8,
  BAD_NAME_REFERENCE: 9,
  OUT_OF_MEMORY: 10,
  TOO_LARGE: 11,
  LINE_ORDER: 12,
  BAD_CHUNKS: 13,
  SEVERAL_SOURCES: 14,
  UNSORTED: 15,
  TOO_DEEP: 16,
  WORDS: 17,
  NO_TEXT: 18,
  SECTION_ORDER: 19,
  INPUT_LINE_ORDER: 20,
  BAD_BASE64: 21,
  BAD_DATA_UTF8: 22,
  NOT_COMPILED: 23,
  COMPILED_VERSION: 24,
  COMPILED_LENGTH: 25,
  COMPILED_SIZES: 26,
  BAD_SCOPES: 27,
  SCOPES_NOT_TEXT: 28,
  SCOPES_INDEXED: 29,
  NULL_HANDLE: 100,
  NOT_UTF8: 101,
  LENGTHS: 102,
  NO_ENTRY: 103,
  NO_INDEX: 104,
  BAD_OPTION: 105,
  NO_FILE: 106,
  SHARED: 107,
  NOT_SHARED: 108,
});

const Field = Object.freeze({
  OBJECT: 0,
  VERSION: 1,
  FILE: 2,
  MAPPINGS: 3,
  SOURCE_ROOT: 4,
  SOURCES: 5,
  SOURCES_CONTENT: 6,
  NAMES: 7,
  DEBUG_ID: 8,
  IGNORE_LIST: 9,
  GOOGLE_IGNORE_LIST: 10,
  SECTIONS: 11,
  OFFSET: 12,
  MAP: 13,
});

const ScopesFault = Object.freeze({
  NOT_A_DIGIT: 1,
  CUT_SHORT: 2,
  TOO_LARGE: 3,
  MISSING_NUMBER: 4,
  BAD_INDEX: 5,
  NOTHING_OPEN: 6,
  NOT_CLOSED: 7,
  TOO_DEEP: 8,
  LEFT_OPEN: 9,
  SPLIT_TWICE: 10,
});

const Place = Object.freeze({
  NONE: 0,
  SEGMENT: 1,
  READING: 2,
  MEMBER: 3,
  ENTRY: 4,
});

const Bias = Object.freeze({
  BEFORE: 0,
  CLAMPED: 1,
  AFTER: 2,
});

const Kind = Object.freeze({
  NOTHING: 0,
  UNMAPPED: 1,
  MAPPED: 2,
  NAMED: 3,
});

const Mend = Object.freeze({
  BYTE_ORDER_MARK: 1,
  JSON_PREFIX: 2,
  DATA_URL: 3,
  VERSION: 4,
  NO_SOURCES: 5,
  NULL_SOURCE: 6,
  NO_CONTENTS: 7,
  BAD_CONTENT: 8,
  NULL_NAMES: 9,
  NO_IGNORE_LIST: 10,
  BAD_IGNORED_ID: 11,
  NO_GOOGLE_IGNORE_LIST: 12,
  BAD_GOOGLE_IGNORED_ID: 13,
  SOURCE_IDS: 14,
  NAME_IDS: 15,
  UNSORTED: 16,
  CUT: 17,
});

const Direction = Object.freeze({
  AT: 0,
  FOR: 1,
  FROM: 2,
  ON_LINE: 3,
});

const Text = Object.freeze({
  NAME: 0,
  SOURCE: 1,
  SOURCE_CONTENT: 2,
  FILE: 3,
  SOURCE_ROOT: 4,
  DEBUG_ID: 5,
});

const Language = Object.freeze({
  JAVASCRIPT: 0,
  CSS: 1,
});

/** How many words a struct has. */
const Words = Object.freeze({
  FAULT: 18,
  TOKEN: 6,
  PIECE: 5,
  MEND: 6,
  SCOPE: 9,
  RANGE: 11,
  FRAME: 5,
  CHAIN_ENTRY: 2,
});

module.exports = { NO_ID, Code, Field, ScopesFault, Place, Bias, Kind, Mend, Direction, Text, Language, Words };

/* Codes of errors, fields, and places. */
#include "tests.h"

/* (the words of SMAP_BAD_SCOPES are those of its field: scopes.c; those of SMAP_NO_FILE are the system's: files.c) */
static const struct {
    uint32_t code, number;
    const char *name, *message;
} CODES[] = {
    { SMAP_OK, 0, "SMAP_OK", "" },
    { SMAP_VLQ_LEFTOVER, 1, "SMAP_VLQ_LEFTOVER", "VLQ string was malformed and data was left over" },
    { SMAP_VLQ_NO_VALUES, 2, "SMAP_VLQ_NO_VALUES", "VLQ string was empty and no values could be decoded" },
    { SMAP_VLQ_OVERFLOW, 3, "SMAP_VLQ_OVERFLOW", "The input encoded a number that didn't fit into i64" },
    { SMAP_JSON_READING, 4, "SMAP_JSON_READING", "JSON parsing error: the text is not JSON" },
    { SMAP_JSON_SHAPE, 5, "SMAP_JSON_SHAPE", "JSON parsing error: the value is not an object" },
    { SMAP_JSON_VERSION, 6, "SMAP_JSON_VERSION", "JSON parsing error: unsupported source map version: 7" },
    { SMAP_BAD_SEGMENT_SIZE, 7, "SMAP_BAD_SEGMENT_SIZE", "Mapping segment had an unsupported size of 7" },
    { SMAP_BAD_SOURCE_REFERENCE, 8, "SMAP_BAD_SOURCE_REFERENCE", "Reference to non-existing source at position 7" },
    { SMAP_BAD_NAME_REFERENCE, 9, "SMAP_BAD_NAME_REFERENCE", "Reference to non-existing name at position 7" },
    { SMAP_OUT_OF_MEMORY, 10, "SMAP_OUT_OF_MEMORY", "Out of memory" },
    { SMAP_TOO_LARGE, 11, "SMAP_TOO_LARGE", "A line, an id or a count is too large" },
    { SMAP_LINE_ORDER, 12, "SMAP_LINE_ORDER", "Token 7 lies on a line before the token in front of it" },
    { SMAP_BAD_CHUNKS, 13, "SMAP_BAD_CHUNKS", "Token chunk 7 does not fit the tokens" },
    { SMAP_SEVERAL_SOURCES, 14, "SMAP_SEVERAL_SOURCES", "Cannot compose a transformation map with 7 sources" },
    { SMAP_UNSORTED, 15, "SMAP_UNSORTED", "Tokens are not in order of line and column" },
    { SMAP_TOO_DEEP, 16, "SMAP_TOO_DEEP", "The plan is deeper than 64" },
    { SMAP_WORDS, 17, "SMAP_WORDS", "The words say no plan" },
    { SMAP_NO_TEXT, 18, "SMAP_NO_TEXT", "There is no text 7" },
    { SMAP_SECTION_ORDER, 19, "SMAP_SECTION_ORDER", "Section 7 begins before the end of what is in front of it" },
    { SMAP_INPUT_LINE_ORDER, 20, "SMAP_INPUT_LINE_ORDER", "The tokens of input 7 go back in lines" },
    { SMAP_BAD_BASE64, 21, "SMAP_BAD_BASE64", "The data URL has bad base64 at byte 7 of its data" },
    { SMAP_BAD_DATA_UTF8, 22, "SMAP_BAD_DATA_UTF8", "The data URL has bad UTF-8 at byte 7 of its text" },
    { SMAP_NOT_COMPILED, 23, "SMAP_NOT_COMPILED", "not a compiled source map" },
    { SMAP_COMPILED_VERSION, 24, "SMAP_COMPILED_VERSION", "unsupported version of a compiled source map: 7" },
    { SMAP_COMPILED_LENGTH, 25, "SMAP_COMPILED_LENGTH", "a compiled source map has another length than it says" },
    { SMAP_COMPILED_SIZES, 26, "SMAP_COMPILED_SIZES", "the sizes in a compiled source map do not add up" },
    { SMAP_BAD_SCOPES, 27, "SMAP_BAD_SCOPES", NULL },
    { SMAP_SCOPES_NOT_TEXT, 28, "SMAP_SCOPES_NOT_TEXT", "`scopes` is no text" },
    { SMAP_SCOPES_INDEXED, 29, "SMAP_SCOPES_INDEXED", "the scopes of an indexed map are not read" },
    { SMAP_NULL_HANDLE, 100, "SMAP_NULL_HANDLE", "The handle is null" },
    { SMAP_NOT_UTF8, 101, "SMAP_NOT_UTF8", "Byte 7 is not UTF-8" },
    { SMAP_LENGTHS, 102, "SMAP_LENGTHS", "The lengths of two lists differ" },
    { SMAP_NO_ENTRY, 103, "SMAP_NO_ENTRY", "There is no such entry" },
    { SMAP_NO_INDEX, 104, "SMAP_NO_INDEX", "The map has no index of its sources" },
    { SMAP_BAD_OPTION, 105, "SMAP_BAD_OPTION", "There is no such option" },
    { SMAP_NO_FILE, 106, "SMAP_NO_FILE", NULL },
    { SMAP_SHARED, 107, "SMAP_SHARED", "The map is shared" },
    { SMAP_NOT_SHARED, 108, "SMAP_NOT_SHARED", "The map is not shared" },
};

/* Whether a call that writes words writes these, and as much as fits of them. */
static void says(size_t (*call)(const smap_fault *, char *, size_t), const smap_fault *fault, const char *wanted) {
    char out[200];
    size_t len = strlen(wanted), part = len < 3 ? len : 3;
    memset(out, '#', sizeof out);
    CHECK_ROW(call(fault, out, sizeof out) == len && memcmp(out, wanted, len) == 0 && out[len] == '#', (int)fault->code, wanted);
    memset(out, '#', sizeof out);
    CHECK(call(fault, out, 3) == len && memcmp(out, wanted, part) == 0 && out[3] == '#');
    CHECK(call(fault, NULL, 0) == len);
}

static void codes(void) {
    size_t k = 0;
    CHECK(SMAP_VERSION == 2 && smap_version() == 2);
    for (uint32_t number = 0; number < 200; number++) {
        int is_code = k < LEN(CODES) && CODES[k].number == number;
        CHECK(strcmp(smap_code_name(number), is_code ? CODES[k].name : "SMAP_UNKNOWN") == 0);
        if (!is_code) continue;
        smap_fault fault = fault_of(CODES[k].code, SMAP_FIELD_OBJECT, 7);
        CHECK(CODES[k].code == number);
        if (CODES[k].message) says(smap_message, &fault, CODES[k].message);
        k++;
    }
    CHECK(k == LEN(CODES) && strcmp(smap_code_name(UINT32_MAX), "SMAP_UNKNOWN") == 0);
    smap_fault wide = fault_of(SMAP_LINE_ORDER, 0, 4294967296);
    says(smap_message, &wide, "Token 4294967296 lies on a line before the token in front of it");
}

static const struct {
    uint32_t field, number;
    const char *key;
} FIELDS[] = {
    { SMAP_FIELD_VERSION, 1, "version" },
    { SMAP_FIELD_FILE, 2, "file" },
    { SMAP_FIELD_MAPPINGS, 3, "mappings" },
    { SMAP_FIELD_SOURCE_ROOT, 4, "sourceRoot" },
    { SMAP_FIELD_SOURCES, 5, "sources" },
    { SMAP_FIELD_SOURCES_CONTENT, 6, "sourcesContent" },
    { SMAP_FIELD_NAMES, 7, "names" },
    { SMAP_FIELD_DEBUG_ID, 8, "debugId" },
    { SMAP_FIELD_IGNORE_LIST, 9, "ignoreList" },
    { SMAP_FIELD_GOOGLE_IGNORE_LIST, 10, "x_google_ignoreList" },
    { SMAP_FIELD_SECTIONS, 11, "sections" },
    { SMAP_FIELD_OFFSET, 12, "offset" },
    { SMAP_FIELD_MAP, 13, "map" },
};

static void fields(void) {
    CHECK(SMAP_FIELD_OBJECT == 0);
    for (size_t i = 0; i < LEN(FIELDS); i++) {
        char wanted[100];
        smap_fault fault = fault_of(SMAP_JSON_SHAPE, FIELDS[i].field, 0);
        CHECK(FIELDS[i].field == FIELDS[i].number);
        sprintf(wanted, "JSON parsing error: field %s is missing or has the wrong type", FIELDS[i].key);
        says(smap_message, &fault, wanted);
        fault.place.kind = SMAP_PLACE_MEMBER;
        fault.place.field = FIELDS[i].field;
        fault.place.text = fault.place.section = SMAP_NOT_TOLD;
        says(smap_place_message, &fault, FIELDS[i].key);
    }
}

static void places(void) {
    smap_fault fault = placed(SMAP_PLACE_SEGMENT, 0, 700, NONE, 0, 3, 12, 0);
    says(smap_place_message, &fault, "text 700, line 0, segment 3 (byte 12)");
    fault = placed(SMAP_PLACE_SEGMENT, 0, 1, 2, 0, 3, 12, 0);
    says(smap_place_message, &fault, "text 1, section 2, line 0, segment 3 (byte 12)");
    fault = placed(SMAP_PLACE_ENTRY, SMAP_FIELD_SOURCES, NONE, 0, 0, 0, 0, 2);
    says(smap_place_message, &fault, "section 0, entry 2 of sources");
    fault = placed(SMAP_PLACE_MEMBER, SMAP_FIELD_OBJECT, NONE, NONE, 0, 0, 0, 0);
    says(smap_place_message, &fault, "the value");
    fault = placed(SMAP_PLACE_READING, 0, NONE, NONE, 4, 0, 99, 0);
    says(smap_place_message, &fault, "line 4, column 0 (byte 99)");
    fault = placed(SMAP_PLACE_NONE, 0, 0, 0, 0, 0, 0, 0);
    says(smap_place_message, &fault, "");
    CHECK(SMAP_PLACE_NONE == 0 && SMAP_PLACE_SEGMENT == 1 && SMAP_PLACE_READING == 2 && SMAP_PLACE_MEMBER == 3 &&
          SMAP_PLACE_ENTRY == 4);
    CHECK(SMAP_NOT_TOLD == UINT64_MAX && SMAP_NO_ID == UINT32_MAX);
}

void test_errors(void) {
    codes();
    fields();
    places();
}

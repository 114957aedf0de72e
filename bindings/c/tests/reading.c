/* Texts that are read, refused and mended. */
#include "tests.h"

/* Reading this text fails with this code, field and number, at this place, if it has words. */
static void refused(const char *json, size_t len, uint32_t code, uint32_t field, uint64_t detail, const char *place) {
    smap_map *map = (smap_map *)&failed;
    smap_fault fault = junk();
    char out[100];
    CHECK_ROW(smap_from_json_string(json, len, &map, &fault) == code && map == (smap_map *)&failed, __LINE__, json);
    CHECK_ROW(fault.code == code && fault.field == field && fault.detail == detail, __LINE__, json);
    CHECK_ROW(smap_place_message(&fault, out, sizeof out) == strlen(place) && memcmp(out, place, strlen(place)) == 0, __LINE__, json);
    CHECK(smap_from_json_string(json, len, &map, NULL) == code && map == (smap_map *)&failed);
}

#define SECTION(line, map) "{\"offset\":{\"line\":" line ",\"column\":2},\"map\":" map "}"
#define INDEXED(sections) "{\"version\":3,\"sections\":[" sections "]}"
#define SMALL "{\"version\":3,\"sources\":[\"a.ts\"],\"mappings\":\"AAAA\"}"

/* Texts with what is really wrong with them, or "" where the message tells. */
static const struct { const char *text, *reason; } REASONS[] = {
    { OF_A("\"mappings\":\"AAAA,DAAA\""), "a column below 0" },
    { OF_A("\"mappings\":\" AAAA\""), "a byte that is no digit: 0x20" },
    { OF_A("\"mappings\":\"ADAA\""), "a source id below 0" },
    { OF_A("\"mappings\":\"AAAA,AA\""), "" },
    { ")]}'\n" OF_A("\"mappings\":\"AADA\""), "a source line below 0" },
    { "{\"version\":3,\"file\":\"\\ud800\"}", "a lone surrogate" },
    { "{\"version\":3,\"file\":}", "" },
    { "{\"version\":3.5,\"sources\":[],\"mappings\":\"\"}", "a number that is not whole" },
    { "{\"version\":3,\"sections\":[{\"offset\":{\"line\":-1,\"column\":0},\"map\":" SMALL "}]}", "a number below 0" },
};

static void reasons(void) {
    for (size_t i = 0; i < LEN(REASONS); i++) {
        smap_map *map = NULL;
        smap_fault fault;
        char out[100];
        const char *text = REASONS[i].text, *reason = REASONS[i].reason;
        CHECK_ROW(smap_read_found(text, strlen(text), &map, NULL, &fault) != SMAP_OK && map == NULL, __LINE__, text);
        CHECK_ROW(smap_reason_message(text, strlen(text), &fault, NULL, 0) == strlen(reason), __LINE__, text);
        size_t len = smap_reason_message(text, strlen(text), &fault, out, sizeof out);
        CHECK_ROW(len == strlen(reason) && memcmp(out, reason, len) == 0, __LINE__, text);
    }
    smap_map *map = NULL;
    smap_fault fault;
    char out[8] = "xxxxxxx";
    CHECK(smap_decode_mappings(TEXT("A;D"), 0, 0, &map, &fault) == SMAP_BAD_SEGMENT_SIZE);
    CHECK(smap_reason_message(TEXT("A;D"), &fault, out, 4) == strlen("a column below 0") && memcmp(out, "a coxxx", 8) == 0);
    /* The place of another text, no text, no UTF-8, and no fault. */
    CHECK(smap_reason_message(TEXT("A;A"), &fault, out, 8) == 0 && smap_reason_message(NULL, 0, &fault, NULL, 0) == 0);
    CHECK(smap_reason_message(TEXT("\xff"), &fault, out, 8) == 0 && memcmp(out, "a coxxx", 8) == 0);
    fault = fault_of(SMAP_OK, 0, 0);
    CHECK(smap_reason_message(TEXT("A;D"), &fault, out, 8) == 0);
}

static void refusals(void) {
    refused(TEXT("ab\xff"), SMAP_NOT_UTF8, 0, 2, "");
    refused("\xff", 0, SMAP_JSON_READING, 0, 0, "line 0, column 0 (byte 0)");
    refused(NULL, 0, SMAP_JSON_READING, 0, 0, "line 0, column 0 (byte 0)");
    refused(TEXT("{\n\n  \"\xc3\xa9\": tru\n}"), SMAP_JSON_READING, 0, 0, "line 2, column 8 (byte 11)");
    refused(TEXT("[]"), SMAP_JSON_SHAPE, SMAP_FIELD_OBJECT, 0, "the value");
    refused(TEXT("{\"version\":3,\"mappings\":\"\",\"sources\":{}}"), SMAP_JSON_SHAPE, SMAP_FIELD_SOURCES, 0, "sources");
    refused(TEXT("{\"version\":3,\"mappings\":\"\",\"sources\":[\"a\",1]}"), SMAP_JSON_SHAPE, SMAP_FIELD_SOURCES, 0,
        "entry 1 of sources");
    refused(TEXT("{\"version\":4294967295,\"sources\":[],\"mappings\":\"\"}"), SMAP_JSON_VERSION, 0, 4294967295, "version");
    refused(TEXT(OF_A("\"ignoreList\":[0,1],\"mappings\":\"AA\"")), SMAP_BAD_SOURCE_REFERENCE, 0, 1, "entry 1 of ignoreList");
    refused(TEXT(OF_A("\"mappings\":\"A,A;A,AA\"")), SMAP_BAD_SEGMENT_SIZE, 0, 2, "line 1, segment 1 (byte 6)");
    refused(TEXT(OF_A("\"mappings\":\"AAAA;AACA,ACAA\"")), SMAP_BAD_SOURCE_REFERENCE, 0, 0, "line 1, segment 1 (byte 10)");
    refused(TEXT(OF_A("\"mappings\":\"AAAAA\"")), SMAP_BAD_NAME_REFERENCE, 0, 0, "line 0, segment 0 (byte 0)");
    refused(TEXT(OF_A("\"mappings\":\"A;g\"")), SMAP_VLQ_LEFTOVER, 0, 0, "line 1, segment 0 (byte 2)");
    refused(TEXT(OF_A("\"mappings\":\"A,C;;A,gggggggggggggg\"")), SMAP_VLQ_OVERFLOW, 0, 0, "line 2, segment 1 (byte 7)");
    refused(TEXT(OF_A("\"mappings\":\"+/////HAAA,CAAA\"")), SMAP_VLQ_OVERFLOW, 0, 0, "line 0, segment 1 (byte 11)");
}

static void indexed_maps(void) {
    smap_original p;
    smap_map *map = read_map(INDEXED(SECTION("0", SMALL) "," SECTION("4", SMALL)));
    CHECK(smap_trace(map, 4, 2, SMAP_BEFORE, &p, NULL) == SMAP_OK && p.kind == SMAP_MAPPED && p.token.source_id == 1);
    CHECK(is(&p.source, "a.ts") && smap_trace(map, 4, 1, SMAP_BEFORE, &p, NULL) == SMAP_OK && p.kind == SMAP_NOTHING);
    smap_free_map(map);
    refused(TEXT("{\"version\":3,\"sections\":7}"), SMAP_JSON_SHAPE, SMAP_FIELD_SECTIONS, 0, "sections");
    refused(TEXT(INDEXED(SECTION("0", SMALL) ",7")), SMAP_JSON_SHAPE, SMAP_FIELD_SECTIONS, 0, "entry 1 of sections");
    refused(TEXT(INDEXED(SECTION("-1", SMALL))), SMAP_JSON_SHAPE, SMAP_FIELD_OFFSET, 0, "section 0, offset");
    refused(TEXT(INDEXED(SECTION("0", "7"))), SMAP_JSON_SHAPE, SMAP_FIELD_MAP, 0, "section 0, map");
    refused(TEXT(INDEXED(SECTION("0", INDEXED("")))), SMAP_JSON_SHAPE, SMAP_FIELD_MAP, 0, "section 0, map");
    refused(TEXT(INDEXED(SECTION("4", SMALL) "," SECTION("0", SMALL))), SMAP_SECTION_ORDER, 0, 1, "section 1, offset");
    refused(TEXT(INDEXED(SECTION("4", SMALL) "," SECTION("5", OF_A("\"mappings\":\";A,AA\"")))), SMAP_BAD_SEGMENT_SIZE, 0, 2,
            "section 1, line 1, segment 1 (byte 3)");
}

typedef struct mending {
    uint32_t kind;
    uint64_t section, number;
    const char *message;
} mending;

static const struct {
    const char *text, *json;
    mending mends[8];
} FOUND[] = {
    { MARKED,
      "{\"version\":3,\"names\":[],\"sources\":[\"a.js\"],\"mappings\":\"AAAA\"}",
      { { SMAP_MEND_BYTE_ORDER_MARK, NONE, 0, "the byte order mark in front is passed over" },
        { SMAP_MEND_JSON_PREFIX, NONE, 0, "the first line, which begins with )]}', is passed over" },
        { SMAP_MEND_NULL_NAMES, NONE, 0, "names is null, and is read as missing" } } },
    { "data:application/json;base64,eyJ2ZXJzaW9uIjozLCJzb3VyY2VzIjpbbnVsbF0sIm1hcHBpbmdzIjoiQUFBQSJ9",
      "{\"version\":3,\"names\":[],\"sources\":[\"\"],\"mappings\":\"AAAA\"}",
      { { SMAP_MEND_DATA_URL, NONE, 0, "the text is a data URL, and the text in it is read" },
        { SMAP_MEND_NULL_SOURCE, NONE, 0, "source 0 is null, and is read as an empty text" } } },
    { "{\"version\":\"3\",\"names\":[\"x\"],\"mappings\":\"AAAAA,I\",\"ignoreList\":[0]}",
      "{\"version\":3,\"names\":[\"x\"],\"sources\":[],\"ignoreList\":[],\"mappings\":\"A,I\"}",
      { { SMAP_MEND_VERSION, NONE, 0, "version is 3.0 or the text 3, and is read as 3" },
        { SMAP_MEND_NO_SOURCES, NONE, 0, "sources is missing, and is read as an empty list" },
        { SMAP_MEND_BAD_IGNORED_ID, NONE, 0, "entry 0 of ignoreList is no id of a source, and is left out" },
        { SMAP_MEND_SOURCE_IDS, NONE, 1, "tokens with a source id out of range, which are read as unmapped: 1" } } },
    { "{\"version\":3,\"sources\":[\"a\"],\"sourcesContent\":\"A\",\"ignoreList\":{},\"x_google_ignoreList\":[0,1,null],\"mappings\":\"\"}",
      "{\"version\":3,\"names\":[],\"sources\":[\"a\"],\"ignoreList\":[0],\"mappings\":\"\"}",
      { { SMAP_MEND_NO_CONTENTS, NONE, 0, "sourcesContent is no list, and is read as missing" },
        { SMAP_MEND_NO_IGNORE_LIST, NONE, 0, "ignoreList is no list, and is read as missing" },
        { SMAP_MEND_BAD_GOOGLE_IGNORED_ID, NONE, 1, "entry 1 of x_google_ignoreList is no id of a source, and is left out" },
        { SMAP_MEND_BAD_GOOGLE_IGNORED_ID, NONE, 2, "entry 2 of x_google_ignoreList is no id of a source, and is left out" } } },
    { "{\"version\":3,\"sources\":[\"a\"],\"ignoreList\":0,\"x_google_ignoreList\":\"a\",\"mappings\":\"\"}",
      "{\"version\":3,\"names\":[],\"sources\":[\"a\"],\"mappings\":\"\"}",
      { { SMAP_MEND_NO_IGNORE_LIST, NONE, 0, "ignoreList is no list, and is read as missing" },
        { SMAP_MEND_NO_GOOGLE_IGNORE_LIST, NONE, 0, "x_google_ignoreList is no list, and is read as missing" } } },
    { "{\"version\":3,\"sources\":[\"a.js\"],\"names\":[\"x\"],\"mappings\":\"AAAAA,CAAAC,CCAA,CDAAD\"}",
      "{\"version\":3,\"names\":[\"x\"],\"sources\":[\"a.js\"],\"mappings\":\"AAAAA,CAAA,C,CAAAA\"}",
      { { SMAP_MEND_SOURCE_IDS, NONE, 1, "tokens with a source id out of range, which are read as unmapped: 1" },
        { SMAP_MEND_NAME_IDS, NONE, 1, "tokens with a name id out of range, which are read without a name: 1" } } },
    { "{\"version\":3,\"sections\":[{\"offset\":{\"line\":0,\"column\":0},\"map\":{\"version\":3,\"sources\":[\"a.js\"],\"mappings\":"
      "\"GAAA,HACA\"}},{\"offset\":{\"line\":0,\"column\":9},\"map\":{\"version\":3,\"sources\":[\"b.js\"],\"sourcesContent\":[1],"
      "\"ignoreList\":[0,1],\"mappings\":\"AAAA\"}}]}",
      "{\"version\":3,\"names\":[],\"sources\":[\"a.js\",\"b.js\"],\"ignoreList\":[1],\"mappings\":\"AACA,GADA,MCAA\"}",
      { { SMAP_MEND_BAD_CONTENT, 1, 0, "section 1: content 0 is neither a text nor null, and is read as null" },
        { SMAP_MEND_BAD_IGNORED_ID, 1, 1, "section 1: entry 1 of ignoreList is no id of a source, and is left out" },
        { SMAP_MEND_UNSORTED, NONE, 0, "the tokens are not in order, and are sorted" } } },
    { "{\"version\":3,\"sections\":[{\"offset\":{\"line\":2,\"column\":5},\"map\":{\"version\":3,\"sources\":[\"a.js\"],\"mappings\":"
      "\"AAAA,EAAE;AAAA\"}},{\"offset\":{\"line\":2,\"column\":6},\"map\":{\"version\":3,\"sources\":[\"b.js\"],\"mappings\":\"AAAA\"}}]}",
      "{\"version\":3,\"names\":[],\"sources\":[\"a.js\",\"b.js\"],\"mappings\":\";;KAAA,CCAA\"}",
      { { SMAP_MEND_CUT, 0, 2, "section 0: tokens behind the beginning of the next section, which are left out: 2" } } },
    { A, A, { { 0, 0, 0, NULL } } },
};

static void is_mended(const smap_mend *mend, const mending *wanted) {
    char out[200];
    size_t len = strlen(wanted->message);
    int is_so = mend->kind == wanted->kind && mend->section == wanted->section && mend->number == wanted->number;
    CHECK_ROW(is_so, __LINE__, wanted->message);
    memset(out, '#', sizeof out);
    CHECK_ROW(smap_mend_message(mend, out, sizeof out) == len && memcmp(out, wanted->message, len) == 0, __LINE__, wanted->message);
    memset(out, '#', sizeof out);
    CHECK(out[len] == '#' && smap_mend_message(mend, out, 3) == len && memcmp(out, wanted->message, 3) == 0 && out[3] == '#');
    CHECK(smap_mend_message(mend, NULL, 0) == len);
}

static void found_maps(void) {
    smap_map *map;
    smap_mends *mends;
    smap_mend out[8], none;
    size_t count, wanted;
    for (size_t i = 0; i < LEN(FOUND); i++) {
        smap_fault fault = junk();
        for (wanted = 0; FOUND[i].mends[wanted].message; wanted++) {}
        CHECK(smap_read_found(TEXT(FOUND[i].text), &map, &mends, &fault) == SMAP_OK && is_none(&fault) && made(map, FOUND[i].json));
        CHECK(smap_get_mends(mends, LIST(out), &count) == SMAP_OK && count == wanted);
        for (size_t k = 0; k < wanted && k < count; k++) is_mended(&out[k], &FOUND[i].mends[k]);
        count = 77;
        CHECK(smap_get_mends(mends, NULL, 0, &count) == SMAP_OK && count == wanted);
        smap_free_mends(mends);
        CHECK(smap_read_found(TEXT(FOUND[i].text), &map, NULL, NULL) == SMAP_OK && made(map, FOUND[i].json));
    }
    memset(&none, 0, sizeof none);
    CHECK(smap_mend_message(&none, NULL, 0) == 0);
    none.kind = 18;
    CHECK(smap_mend_message(&none, NULL, 0) == 0);
}

static void found_refusals(void) {
    smap_map *map = (smap_map *)&failed;
    smap_mends *mends = (smap_mends *)&passed;
    smap_fault fault = junk();
    CHECK(smap_read_found(TEXT("x\xff"), &map, &mends, &fault) == SMAP_NOT_UTF8 && is_fault(&fault, SMAP_NOT_UTF8, 1));
    CHECK(smap_read_found(TEXT("{\"version\":3,\"sources\":[1],\"mappings\":\"\"}"), &map, &mends, &fault) == SMAP_JSON_SHAPE);
    CHECK(fault.field == SMAP_FIELD_SOURCES && smap_read_found(NULL, 0, &map, NULL, NULL) == SMAP_JSON_READING);
    CHECK(map == (smap_map *)&failed && mends == (smap_mends *)&passed);
}

/* Places of faults that are not mended, of which some stand behind what is. */
static void found_places(void) {
    static const struct {
        const char *text;
        uint32_t code;
        const char *place;
    } FAULTS[] = {
        { "{\"version\": x}", SMAP_JSON_READING, "line 0, column 12 (byte 12)" },
        { "\xef\xbb\xbf{\"version\": x}", SMAP_JSON_READING, "line 0, column 15 (byte 15)" },
        { "\xef\xbb\xbf)]}'\n{\"version\": x}", SMAP_JSON_READING, "line 1, column 12 (byte 20)" },
        { ")]}'\n{\n \"version\": x}", SMAP_JSON_READING, "line 2, column 12 (byte 19)" },
        { ")]}' no line feed", SMAP_JSON_READING, "line 0, column 17 (byte 17)" },
        { "data:application/json,{x}", SMAP_JSON_READING, "line 0, column 1 (byte 1)" },
        { ")]}'\n[]", SMAP_JSON_SHAPE, "the value" },
        { "{\"version\":3,\"sources\":[null,1],\"mappings\":\"\"}", SMAP_JSON_SHAPE, "entry 1 of sources" },
        { "{\"version\":3,\"sources\":[],\"ignoreList\":[3]}", SMAP_JSON_SHAPE, "mappings" },
        { "{\"version\":3,\"sources\":[\"a\"],\"mappings\":\"AEAA;A,AA\"}", SMAP_BAD_SEGMENT_SIZE, "line 1, segment 1 (byte 7)" },
        { "{\"version\":\"3\",\"sections\":{}}", SMAP_JSON_SHAPE, "sections" },
        { "{\"version\":\"3\",\"file\":1,\"sections\":[]}", SMAP_JSON_SHAPE, "file" },
        { INDEXED("7"), SMAP_JSON_SHAPE, "entry 0 of sections" },
        { INDEXED(SECTION("0", SMALL) ",{}"), SMAP_JSON_SHAPE, "section 1, offset" },
        { INDEXED(SECTION("1", SMALL) "," SECTION("0", SMALL)), SMAP_SECTION_ORDER, "section 1, offset" },
        { INDEXED(SECTION("0", SMALL) "," SECTION("1", "7")), SMAP_JSON_SHAPE, "section 1, map" },
        { INDEXED(SECTION("0", SMALL) "," SECTION("1", "{\"version\":\"3\",\"sources\":[null],\"mappings\":\";AA\"}")), SMAP_BAD_SEGMENT_SIZE,
          "section 1, line 1, segment 0 (byte 1)" },
        { INDEXED("{\"offset\":{\"line\":0,\"column\":4294967295},\"map\":{\"version\":3,\"sources\":[\"a\"],\"mappings\":\"CAAA\"}}"),
          SMAP_TOO_LARGE, "" },
    };
    for (size_t i = 0; i < LEN(FAULTS); i++) {
        smap_map *map;
        smap_fault fault = junk();
        char out[100];
        CHECK_ROW(smap_read_found(TEXT(FAULTS[i].text), &map, NULL, &fault) == FAULTS[i].code, __LINE__, FAULTS[i].text);
        size_t len = smap_place_message(&fault, out, sizeof out);
        CHECK_ROW(len == strlen(FAULTS[i].place) && memcmp(out, FAULTS[i].place, len) == 0, __LINE__, FAULTS[i].text);
    }
}

void test_reading(void) {
    reasons();
    refusals();
    indexed_maps();
    found_maps();
    found_refusals();
    found_places();
}

/* Compiled maps: made, opened, asked and taken apart; and bytes that are damaged. */
#include "tests.h"

/* A map, the bytes that it was compiled to, and these open. */
typedef struct trio {
    smap_map *map;
    smap_string *string;
    smap_compiled *compiled;
    smap_text bytes;
} trio;

static uint32_t open_bytes(const smap_text *bytes, smap_compiled **out) {
    smap_fault fault = junk();
    uint32_t code = smap_open_compiled(bytes->at, bytes->len, out, &fault);
    CHECK(code == SMAP_OK ? is_none(&fault) : fault.code == code);
    return code;
}

/* Compiles a map, which is then the trio's. */
static trio compiled_of(smap_map *map) {
    trio it = { map, NULL, NULL, { NULL, 0 } };
    smap_fault fault = junk();
    CHECK(smap_compile(map, 77, NULL, &it.string, &fault) == SMAP_OK && is_none(&fault));
    CHECK(smap_get_text(it.string, &it.bytes) == SMAP_OK && open_bytes(&it.bytes, &it.compiled) == SMAP_OK);
    return it;
}

static void free_trio(trio *it) {
    smap_free_compiled(it->compiled);
    smap_free_string(it->string);
    smap_free_map(it->map);
}

/* ---- the bytes ---- */

#define NUMBER(n) (n), 0, 0, 0
#define STAMP 1, 2, 3, 4, 5, 6, 7, 8, 9, 10, 11, 12, 13, 14, 15, 16, 17, 18, 19, 20, 21, 22, 23, 24, 25, 26, 27, 28, 29, 30, 31, 255

/* Those of B, by docs/FORMAT.md: its token points to line 1 of source 0, which is stored as 1. No field needs a group. */
static const unsigned char BYTES_OF_B[] = {
    's', 'm', 'a', 'p', NUMBER(1), NUMBER(169), NUMBER(0), 8, 7, 6, 5, 4, 3, 2, 1, STAMP,
    NUMBER(1), NUMBER(1), NUMBER(1), NUMBER(0), NUMBER(0), NUMBER(0), NUMBER(0), NUMBER(0), /* what there is */
    NUMBER(0), NUMBER(1),                                                                   /* lines */
    NUMBER(0), NUMBER(0), NUMBER(1), NUMBER(1), NUMBER(0), NUMBER(0), 0, 0, 0, 0, 0,        /* a row */
    NUMBER(0), NUMBER(4), NUMBER(4), NUMBER(4), NUMBER(4), NUMBER(4),                       /* offsets */
    'a', '.', 'j', 's', NUMBER(0), NUMBER(0), NUMBER(0), NUMBER(0),
};
#define STAMP_AT 24
#define LINES_AT 88
#define OFFSETS_AT (LINES_AT + 8 + 29)
#define NAME_AT (sizeof BYTES_OF_B - 20)

static void bytes_of(void) {
    static const unsigned char STAMPED[32] = { STAMP }, ZEROS[32] = { 0 };
    smap_map *map = read_map(B);
    smap_string *string;
    smap_text bytes, stamp;
    smap_compiled *compiled;
    smap_compiled_counts counts;
    CHECK(smap_compile(map, 0x0102030405060708, STAMPED, &string, NULL) == SMAP_OK && smap_get_text(string, &bytes) == SMAP_OK);
    CHECK(bytes.len == sizeof BYTES_OF_B && memcmp(bytes.at, BYTES_OF_B, bytes.len) == 0);
    /* Neither the map nor the bytes that were made are needed. */
    smap_free_string(string);
    CHECK(smap_open_compiled(BYTES_OF_B, sizeof BYTES_OF_B, &compiled, NULL) == SMAP_OK);
    CHECK(smap_compiled_get_stamp(compiled, &stamp) == SMAP_OK && stamp.at == (const char *)BYTES_OF_B + STAMP_AT && stamp.len == 32);
    CHECK(smap_compiled_get_counts(compiled, &counts) == SMAP_OK && counts.text_length == 0x0102030405060708);
    smap_free_compiled(compiled);
    trio it = compiled_of(map);
    CHECK(smap_compiled_get_stamp(it.compiled, &stamp) == SMAP_OK && stamp.len == 32 && memcmp(stamp.at, ZEROS, 32) == 0);
    free_trio(&it);
}

/* The bytes of B with some in the place of others, and cut or made longer, open or not. */
static void opens(size_t at, const char *with, size_t with_len, size_t len, uint32_t code, uint64_t detail) {
    unsigned char bytes[sizeof BYTES_OF_B + 1];
    smap_compiled *out = (smap_compiled *)&failed;
    smap_fault fault = junk();
    memcpy(bytes, BYTES_OF_B, sizeof BYTES_OF_B);
    bytes[sizeof BYTES_OF_B] = 0;
    memcpy(bytes + at, with, with_len);
    CHECK_ROW(smap_open_compiled(bytes, len, &out, &fault) == code && is_fault(&fault, code, detail), (int)at, with);
    CHECK(out == (smap_compiled *)&failed);
    CHECK(smap_open_compiled(bytes, len, &out, NULL) == code && out == (smap_compiled *)&failed);
}

static void open_errors(void) {
    const size_t all = sizeof BYTES_OF_B;
    smap_compiled *out = (smap_compiled *)&failed;
    smap_fault fault = junk();
    opens(0, "", 0, 0, SMAP_NOT_COMPILED, 0);
    opens(4, "\2", 1, 7, SMAP_NOT_COMPILED, 0);
    opens(0, "smaP\2", 5, all, SMAP_NOT_COMPILED, 0);
    opens(4, "\2", 1, 8, SMAP_COMPILED_VERSION, 2);
    opens(4, "\xff\xff\xff\xff", 4, all - 1, SMAP_COMPILED_VERSION, 4294967295);
    opens(0, "", 0, 8, SMAP_COMPILED_LENGTH, 0);
    opens(8, "\x67", 1, 103, SMAP_COMPILED_LENGTH, 0);
    opens(56, "\x01\x40", 2, all - 1, SMAP_COMPILED_LENGTH, 0);
    opens(0, "", 0, all + 1, SMAP_COMPILED_LENGTH, 0);
    opens(12, "\1", 1, all, SMAP_COMPILED_LENGTH, 0);
    opens(56, "\x01\x40", 2, all, SMAP_COMPILED_SIZES, 0);
    opens(84, "\xff\xff\xff\xff", 4, all, SMAP_COMPILED_SIZES, 0);
    CHECK(smap_open_compiled(NULL, 0, &out, &fault) == SMAP_NOT_COMPILED && is_fault(&fault, SMAP_NOT_COMPILED, 0));
    CHECK(out == (smap_compiled *)&failed);
}

static void compile_errors(void) {
    static const smap_position LINES_BACK[2] = { { 2, 5 }, { 1, 0 } }, COLUMNS_BACK[2] = { { 0, 5 }, { 0, 4 } };
    for (int i = 0; i < 2; i++) {
        smap_map *map = map_at(i ? COLUMNS_BACK : LINES_BACK, 2);
        smap_string *out = (smap_string *)&failed;
        smap_fault fault = junk();
        CHECK(smap_compile(map, 0, NULL, &out, &fault) == SMAP_UNSORTED && is_fault(&fault, SMAP_UNSORTED, 0));
        CHECK(smap_compile(map, 0, NULL, &out, NULL) == SMAP_UNSORTED && out == (smap_string *)&failed);
        smap_free_map(map);
    }
}

/* ---- what a compiled map holds ---- */

static int lies_in(const smap_text *text, const char *bytes, size_t len) {
    return text->len == 0 || (text->at >= bytes && text->len <= len && (size_t)(text->at - bytes) <= len - text->len);
}

/* The text of a map that is of this kind. */
static uint32_t text_in(const smap_map *map, uint32_t kind, uint32_t id, smap_text *out) {
    switch (kind) {
        case SMAP_TEXT_NAME: return smap_get_name(map, id, out);
        case SMAP_TEXT_SOURCE: return smap_get_source(map, id, out);
        case SMAP_TEXT_SOURCE_CONTENT: return smap_get_source_content(map, id, out);
        case SMAP_TEXT_FILE: return smap_get_file(map, out);
        case SMAP_TEXT_SOURCE_ROOT: return smap_get_source_root(map, out);
        default: return smap_get_debug_id(map, out);
    }
}

/* Each text that the map has, and none past the last one. */
static void texts_are_held(const trio *it, uint32_t ids) {
    for (uint32_t kind = 0; kind < 6; kind++) {
        for (uint32_t id = 0; id < ids + 2; id++) {
            smap_text wanted = text_of("kept"), found = text_of("kept");
            uint32_t code = text_in(it->map, kind, id, &wanted);
            CHECK_ROW(smap_compiled_get_text(it->compiled, kind, id, &found) == code, (int)kind, "the code of a text");
            CHECK_ROW(found.len == wanted.len && memcmp(found.at, wanted.at, found.len) == 0, (int)kind, "a text");
            CHECK(code == SMAP_NO_ENTRY || lies_in(&found, it->bytes.at, it->bytes.len));
        }
    }
}

/* The same counts, tokens, texts and ignored ids as the map that was compiled; and it comes back. */
static void holds_same(const trio *it) {
    smap_counts wanted;
    smap_compiled_counts counts;
    smap_token token, found;
    uint32_t ids[8], flag;
    size_t ignored = 0;
    memset(&counts, 7, sizeof counts);
    int has_list = smap_get_ignore_list(it->map, LIST(ids), &ignored) == SMAP_OK;
    CHECK(smap_get_counts(it->map, &wanted) == SMAP_OK && smap_compiled_get_counts(it->compiled, &counts) == SMAP_OK);
    CHECK(counts.tokens == wanted.tokens && counts.sources == wanted.sources && counts.names == wanted.names);
    CHECK(counts.ignored == wanted.ignore_list && counts.has_ignore_list == (uint32_t)has_list && counts.rest == 0);
    CHECK(counts.text_length == 77);
    for (uint32_t i = 0; i < wanted.tokens; i++) {
        int is_so = smap_get_token(it->map, i, &token) == SMAP_OK && smap_compiled_get_token(it->compiled, i, &found) == SMAP_OK;
        CHECK_ROW(is_so && memcmp(&token, &found, sizeof token) == 0, (int)i, "a token");
    }
    memset(&token, 7, sizeof token), found = token;
    CHECK(smap_compiled_get_token(it->compiled, (uint32_t)wanted.tokens, &found) == SMAP_NO_ENTRY);
    CHECK(smap_compiled_get_token(it->compiled, MAX, &found) == SMAP_NO_ENTRY && memcmp(&token, &found, sizeof token) == 0);
    for (uint32_t id = 0; id < wanted.sources + 2; id++) {
        uint32_t is_listed = 0;
        for (size_t k = 0; k < ignored; k++) is_listed |= ids[k] == id;
        flag = 77;
        CHECK(smap_compiled_is_ignored(it->compiled, id, &flag) == SMAP_OK && flag == is_listed);
    }
    texts_are_held(it, (uint32_t)(wanted.sources + wanted.names));
}

static void comes_back(const trio *it, const char *wanted) {
    smap_map *back;
    smap_position first = { 7, 7 };
    smap_fault fault = junk();
    uint32_t is_sound = 0;
    CHECK(smap_decompile(it->compiled, &back, &fault) == SMAP_OK && is_none(&fault));
    CHECK(smap_first_difference(it->map, back, &first) == SMAP_NO_ENTRY && smap_is_sound(back, &is_sound) == SMAP_OK && is_sound);
    CHECK(wanted == NULL || writes(back, wanted));
    smap_free_map(back);
}

/* ---- lookups ---- */

#define BATCH 32

/* What a compiled map says of positions is what the map says that was compiled. */
static void says_same(const trio *it, const smap_position *positions, size_t len) {
    smap_original wanted[BATCH], all[BATCH], one;
    uint32_t found[BATCH];
    for (uint32_t bias = SMAP_BEFORE; bias <= SMAP_AFTER; bias++) {
        memset(all, 7, sizeof all), memset(found, 7, sizeof found);
        CHECK(smap_trace_all(it->map, positions, len, bias, wanted, len, NULL) == SMAP_OK);
        CHECK(smap_compiled_trace_all(it->compiled, positions, len, bias, all, len) == SMAP_OK);
        CHECK(smap_compiled_find_all(it->compiled, positions, len, bias, found, len) == SMAP_OK);
        for (size_t i = 0; i < len; i++) {
            memset(&one, 7, sizeof one);
            uint32_t code = smap_compiled_trace(it->compiled, positions[i].line, positions[i].column, bias, &one);
            CHECK_ROW(code == SMAP_OK && is_same(&wanted[i], &one), (int)positions[i].column, "a trace");
            CHECK_ROW(is_same(&wanted[i], &all[i]) && wanted[i].index == found[i], (int)positions[i].column, "one of many");
            CHECK(lies_in(&one.source, it->bytes.at, it->bytes.len) && lies_in(&one.name, it->bytes.at, it->bytes.len));
        }
    }
}

/* All positions up to these, and far ones. */
static void says_same_up_to(const trio *it, uint32_t lines, uint32_t columns) {
    smap_position positions[BATCH];
    size_t len = 0;
    for (uint32_t line = 0; line < lines; line++) {
        for (uint32_t column = 0; column < columns; column++) {
            positions[len++] = at(line, column);
            if (len == BATCH) says_same(it, positions, len), len = 0;
        }
    }
    if (len > BATCH - 4) says_same(it, positions, len), len = 0;
    for (uint32_t k = 0; k < 4; k++) positions[len++] = at(k & 1 ? MAX : 0, k & 2 ? MAX : 0);
    says_same(it, positions, len);
}

#define MANY 16600

/* 200 tokens, or so many that there are blocks: a line of more than two of them, then short lines with gaps. Columns rise by 0 to 3, and
 * every field has many values. */
static smap_map *wide_map(uint32_t count) {
    static smap_token tokens[MANY];
    smap_text names[3] = { text_of("n"), text_of(""), text_of("\xc3\xa9") }, sources[2] = { text_of("a"), text_of("b") };
    smap_map *map;
    for (uint32_t i = 0, column = 2, line = 1; i < count; i++) {
        if (i >= 140 && i % 4 == 0) line += i % 3 + 1, column = i % 5;
        tokens[i] = token_of(line, column, i * i, i * 70001, i % 9 ? i % 2 : NO, i % 9 && i % 4 ? i % 3 : NO);
        column += i % 4;
    }
    CHECK(smap_from_tokens(tokens, count, LIST(names), LIST(sources), NULL, 0, NULL, 0, &map, NULL) == SMAP_OK);
    return map;
}

#define NOTHING_IN_TEXTS \
    "{\"version\":3,\"file\":\"\",\"sourceRoot\":\"\",\"names\":[\"\"],\"sources\":[\"\",\"\"],\"sourcesContent\":[\"\",null]," \
    "\"ignoreList\":[],\"mappings\":\"AAAAA;CCAA\",\"debugId\":\"\"}"

static void maps_are_compiled(void) {
    static const char *const JSONS[] = { A, B, C, EMPTY, NOTHING_IN_TEXTS };
    CHECK(SMAP_TEXT_NAME == 0 && SMAP_TEXT_SOURCE == 1 && SMAP_TEXT_SOURCE_CONTENT == 2 && SMAP_TEXT_FILE == 3);
    CHECK(SMAP_TEXT_SOURCE_ROOT == 4 && SMAP_TEXT_DEBUG_ID == 5);
    for (size_t i = 0; i < LEN(JSONS); i++) {
        trio it = compiled_of(read_map(JSONS[i]));
        holds_same(&it);
        says_same_up_to(&it, 3, 12);
        comes_back(&it, JSONS[i]);
        free_trio(&it);
    }
    for (int many = 0; many < 2; many++) {
        trio it = compiled_of(wide_map(many ? MANY : 200));
        holds_same(&it);
        says_same_up_to(&it, 34, 220);
        comes_back(&it, NULL);
        free_trio(&it);
    }
}

/* Lines and columns that are far apart, so that lines are numbered. */
static void far_positions(void) {
    static const smap_position FAR[5] = { { 0, MAX }, { 7, 3 }, { 7, 3 }, { 70000, 0 }, { MAX - 1, MAX - 1 } };
    smap_position positions[27];
    trio it = compiled_of(map_at(FAR, 5));
    holds_same(&it);
    for (size_t i = 0; i < LEN(FAR); i++) {
        for (uint32_t k = 0; k < 9; k++) positions[k] = at(FAR[i].line + k / 3 - 1, FAR[i].column + k % 3 - 1);
        says_same(&it, positions, 9);
    }
    comes_back(&it, NULL);
    free_trio(&it);
}

/* A content past the last source is dropped. */
static void contents_past_the_sources(void) {
    smap_text sources[1] = { text_of("a") }, contents[2] = { text_of("A"), text_of("B") }, text;
    smap_map *map;
    CHECK(smap_from_tokens(NULL, 0, NULL, 0, LIST(sources), LIST(contents), NULL, 0, &map, NULL) == SMAP_OK);
    trio it = compiled_of(map);
    CHECK(smap_compiled_get_text(it.compiled, SMAP_TEXT_SOURCE_CONTENT, 0, &text) == SMAP_OK && is(&text, "A"));
    CHECK(smap_compiled_get_text(it.compiled, SMAP_TEXT_SOURCE_CONTENT, 1, &text) == SMAP_NO_ENTRY && is(&text, "A"));
    comes_back(&it, "{\"version\":3,\"names\":[],\"sources\":[\"a\"],\"sourcesContent\":[\"A\"],\"mappings\":\"\"}");
    free_trio(&it);
}

/* The errors of lookups, in their order, write nothing. */
static void asking_errors(void) {
    trio it = compiled_of(read_map(A));
    smap_position positions[3] = { { 0, 0 }, { 0, 4 }, { 1, 9 } };
    smap_original all[4];
    uint32_t found[4];
    smap_text text = text_of("kept");
    memset(all, 7, sizeof all), memset(found, 7, sizeof found);
    CHECK(smap_compiled_trace(it.compiled, 0, 0, 3, all) == SMAP_BAD_OPTION);
    CHECK(smap_compiled_trace(it.compiled, 0, 0, MAX, all) == SMAP_BAD_OPTION);
    CHECK(smap_compiled_trace_all(it.compiled, positions, 3, 3, all, 4) == SMAP_LENGTHS);
    CHECK(smap_compiled_trace_all(it.compiled, positions, 3, 3, all, 3) == SMAP_BAD_OPTION);
    CHECK(smap_compiled_trace_all(it.compiled, NULL, 0, SMAP_AFTER, all, 1) == SMAP_LENGTHS);
    CHECK(smap_compiled_find_all(it.compiled, positions, 3, 3, found, 2) == SMAP_LENGTHS);
    CHECK(smap_compiled_find_all(it.compiled, positions, 3, 3, found, 3) == SMAP_BAD_OPTION);
    CHECK(smap_compiled_find_all(it.compiled, positions, 3, SMAP_BEFORE, NULL, 0) == SMAP_LENGTHS);
    CHECK(all[0].kind == 0x07070707 && found[0] == 0x07070707);
    CHECK(smap_compiled_trace_all(it.compiled, NULL, 0, SMAP_BEFORE, NULL, 0) == SMAP_OK);
    CHECK(smap_compiled_find_all(it.compiled, NULL, 0, SMAP_CLAMPED, NULL, 0) == SMAP_OK);
    CHECK(smap_compiled_trace_all(it.compiled, NULL, 0, 3, NULL, 0) == SMAP_BAD_OPTION);
    CHECK(smap_compiled_trace_all(it.compiled, positions, 2, SMAP_BEFORE, all, 2) == SMAP_OK && all[1].index == 1);
    CHECK(smap_compiled_find_all(it.compiled, positions, 2, SMAP_BEFORE, found, 2) == SMAP_OK && found[1] == 1);
    CHECK(all[2].kind == 0x07070707 && found[2] == 0x07070707);
    CHECK(smap_compiled_get_text(it.compiled, 6, 0, &text) == SMAP_BAD_OPTION && is(&text, "kept"));
    CHECK(smap_compiled_get_text(it.compiled, MAX, MAX, &text) == SMAP_BAD_OPTION && is(&text, "kept"));
    CHECK(smap_compiled_get_text(it.compiled, SMAP_TEXT_FILE, MAX, &text) == SMAP_OK && is(&text, "out.js"));
    free_trio(&it);
}

/* ---- bytes that no smap_compile made ---- */

/* Texts that are not UTF-8 are lent, but no map has them. */
static void no_utf8(void) {
    unsigned char bytes[sizeof BYTES_OF_B];
    smap_compiled *compiled;
    smap_map *back = (smap_map *)&failed;
    smap_original p;
    smap_text text;
    smap_fault fault = junk();
    memcpy(bytes, BYTES_OF_B, sizeof bytes);
    bytes[NAME_AT] = 0xff;
    CHECK(smap_open_compiled(bytes, sizeof bytes, &compiled, NULL) == SMAP_OK);
    CHECK(smap_compiled_trace(compiled, 0, 4, SMAP_BEFORE, &p) == SMAP_OK && p.kind == SMAP_MAPPED && is(&p.source, "\xff.js"));
    CHECK(smap_compiled_get_text(compiled, SMAP_TEXT_SOURCE, 0, &text) == SMAP_OK && text.at == (char *)bytes + NAME_AT && text.len == 4);
    CHECK(smap_decompile(compiled, &back, &fault) == SMAP_NO_ENTRY && is_fault(&fault, SMAP_NO_ENTRY, 0));
    CHECK(smap_decompile(compiled, &back, NULL) == SMAP_NO_ENTRY && back == (smap_map *)&failed);
    smap_free_compiled(compiled);
}

/* The code of taking apart bytes that are opened. No map is made if it fails. */
static uint32_t taken_apart(const unsigned char *bytes, size_t len) {
    smap_compiled *compiled = NULL;
    smap_map *back = NULL;
    smap_fault fault = junk();
    CHECK(smap_open_compiled(bytes, len, &compiled, NULL) == SMAP_OK);
    uint32_t code = smap_decompile(compiled, &back, &fault);
    CHECK((back == NULL) == (code != SMAP_OK) && fault.code == code);
    smap_free_map(back);
    smap_free_compiled(compiled);
    return code;
}

/* No map is made of bytes that would have tokens, or parts of texts, several times. */
static void no_repeats(void) {
    static const smap_position FAR[3] = { { 0, 4 }, { 1, 0 }, { 70000, 3 } };
    trio it = compiled_of(map_at(FAR, 3));
    unsigned char *bytes = (unsigned char *)malloc(it.bytes.len), texts[sizeof BYTES_OF_B];
    memcpy(bytes, it.bytes.at, it.bytes.len);
    CHECK(taken_apart(bytes, it.bytes.len) == SMAP_OK);
    /* The first and the last line have all three tokens. */
    bytes[LINES_AT + 4] = 3, bytes[LINES_AT + 8] = 0;
    CHECK(taken_apart(bytes, it.bytes.len) == SMAP_NO_ENTRY);
    /* The last line ends before it begins. */
    memcpy(bytes, it.bytes.at, it.bytes.len);
    bytes[LINES_AT + 12] = 1;
    CHECK(taken_apart(bytes, it.bytes.len) == SMAP_NO_ENTRY);
    free(bytes);
    free_trio(&it);
    memcpy(texts, BYTES_OF_B, sizeof texts);
    CHECK(taken_apart(texts, sizeof texts) == SMAP_OK);
    /* The name of the file has the bytes of the source. */
    texts[OFFSETS_AT + 8] = 0;
    CHECK(taken_apart(texts, sizeof texts) == SMAP_NO_ENTRY);
    /* The last text ends before it begins. */
    memcpy(texts, BYTES_OF_B, sizeof texts);
    texts[OFFSETS_AT + 20] = 3;
    CHECK(taken_apart(texts, sizeof texts) == SMAP_NO_ENTRY);
}

/* Whether lookups in bytes that may be damaged answer a token of the line or none, by texts within the bytes. */
static int finds_within(const smap_compiled *compiled, const char *bytes, size_t len, uint64_t tokens) {
    static const smap_position PLACES[6] = { { 0, 0 }, { 0, 4 }, { 0, MAX }, { 1, 0 }, { 1, 9 }, { MAX, 1 } };
    smap_original all[6];
    uint32_t found[6];
    int is_so = 1;
    for (uint32_t bias = SMAP_BEFORE; bias <= SMAP_AFTER; bias++) {
        is_so &= smap_compiled_trace_all(compiled, LIST(PLACES), bias, LIST(all)) == SMAP_OK;
        is_so &= smap_compiled_find_all(compiled, LIST(PLACES), bias, LIST(found)) == SMAP_OK;
        for (size_t i = 0; i < LEN(PLACES); i++) {
            smap_original p;
            is_so &= smap_compiled_trace(compiled, PLACES[i].line, PLACES[i].column, bias, &p) == SMAP_OK && is_same(&p, &all[i]);
            is_so &= p.index == found[i] && lies_in(&p.source, bytes, len) && lies_in(&p.name, bytes, len);
            is_so &= p.kind == SMAP_NOTHING ? p.index == NO : p.token.dst_line == PLACES[i].line && p.index < tokens;
        }
    }
    return is_so;
}

/* The same for all other calls, and for the map that comes back. */
static int answers_within(const smap_compiled *compiled, const char *bytes, size_t len) {
    smap_compiled_counts counts;
    smap_token token;
    smap_text text;
    smap_map *back = NULL;
    smap_string *string = NULL;
    uint32_t flag = 77, code;
    int is_so = smap_compiled_get_counts(compiled, &counts) == SMAP_OK && counts.has_ignore_list < 2 && counts.rest == 0;
    is_so &= finds_within(compiled, bytes, len, counts.tokens);
    for (uint32_t id = 0; id < 6; id++) {
        code = smap_compiled_get_token(compiled, id, &token);
        is_so &= code == SMAP_OK ? id < counts.tokens : code == SMAP_NO_ENTRY;
        is_so &= smap_compiled_is_ignored(compiled, id, &flag) == SMAP_OK && flag < 2;
        for (uint32_t kind = 0; kind < 6; kind++) {
            code = smap_compiled_get_text(compiled, kind, id, &text);
            is_so &= code == SMAP_OK ? lies_in(&text, bytes, len) : code == SMAP_NO_ENTRY;
        }
    }
    is_so &= smap_compiled_get_stamp(compiled, &text) == SMAP_OK && text.at == bytes + STAMP_AT && text.len == 32;
    code = smap_decompile(compiled, &back, NULL);
    if (code == SMAP_OK) smap_to_json_string_within(back, 65536, &string, NULL);
    else is_so &= code == SMAP_NO_ENTRY && back == NULL;
    smap_free_string(string);
    smap_free_map(back);
    return is_so;
}

/* Whether bytes, at the end of a block of memory, are refused or asked as these are to be. */
static int is_safe(const char *from, size_t len) {
    char *bytes = (char *)malloc(len + 1);
    smap_compiled *compiled = (smap_compiled *)&failed;
    smap_fault fault = junk();
    int is_so = bytes != NULL;
    if (is_so && len) memcpy(bytes + 1, from, len);
    uint32_t code = smap_open_compiled((unsigned char *)bytes + 1, len, &compiled, &fault);
    if (code == SMAP_OK) {
        is_so &= is_none(&fault) && answers_within(compiled, bytes + 1, len);
        smap_free_compiled(compiled);
    } else {
        is_so &= code >= SMAP_NOT_COMPILED && code <= SMAP_COMPILED_SIZES && fault.code == code && compiled == (smap_compiled *)&failed;
    }
    free(bytes);
    return is_so;
}

/* Of a map with blocks some bytes, of the header and of all parts. */
static void damaged_blocks(void) {
    trio it = compiled_of(wide_map(MANY));
    char *bytes = (char *)malloc(it.bytes.len);
    memcpy(bytes, it.bytes.at, it.bytes.len);
    for (size_t i = 0; i < it.bytes.len; i += i < 88 ? 1 : 997) {
        const char was = bytes[i];
        int is_so = is_safe(bytes, i);
        bytes[i] = (char)(was ^ 0x81), is_so &= is_safe(bytes, it.bytes.len), bytes[i] = was;
        CHECK_ROW(is_so, (int)i, "a damaged byte");
    }
    free(bytes);
    free_trio(&it);
}

/* Each byte of two compiled maps is changed to several values, and each is cut off with all behind it. */
static void damaged(void) {
    static const smap_position FAR[3] = { { 0, 4 }, { 1, 0 }, { 70000, 3 } };
    for (int number = 0; number < 2; number++) {
        trio it = compiled_of(number ? map_at(FAR, 3) : read_map(A));
        char *bytes = (char *)malloc(it.bytes.len);
        memcpy(bytes, it.bytes.at, it.bytes.len);
        CHECK(is_safe(bytes, it.bytes.len));
        for (size_t i = 0; i < it.bytes.len; i++) {
            const char was = bytes[i], values[6] = { 0, 1, 0x7f, (char)0x80, (char)0xff, (char)(was ^ 2) };
            int is_so = is_safe(bytes, i);
            for (size_t k = 0; k < LEN(values); k++) bytes[i] = values[k], is_so &= is_safe(bytes, it.bytes.len);
            bytes[i] = was;
            CHECK_ROW(is_so, (int)i, "a damaged byte");
        }
        free(bytes);
        free_trio(&it);
    }
}

void test_compiled(void) {
    damaged_blocks();
    bytes_of();
    open_errors();
    compile_errors();
    maps_are_compiled();
    far_positions();
    contents_past_the_sources();
    asking_errors();
    no_utf8();
    no_repeats();
    damaged();
}

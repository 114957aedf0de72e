/* Lookups by a generated position. */
#include "tests.h"

/* The positions of tokens, how many, a position, and the index of the token before it, clamped and after it. */
#define COOL { { 0, 0 }, { 0, 3 }, { 0, 6 }, { 0, 8 }, { 0, 12 }, { 0, 15 }, { 0, 17 }, { 0, 18 }, { 0, 24 } }, 9
#define EQUAL { { 0, 0 }, { 0, 7 }, { 0, 7 }, { 0, 7 }, { 0, 7 }, { 0, 7 } }, 6
#define LINES { { 1, 1 }, { 3, 1 }, { 3, 2 } }, 3
#define END { { 0, MAX }, { 0, MAX } }, 2
static const struct {
    smap_position tokens[9];
    size_t len;
    smap_position at;
    uint32_t found[3];
} LOOKUPS[] = {
    { COOL, { 0, 3 }, { 1, 1, 1 } },      { COOL, { 0, 1000 }, { 8, 8, NO } },  { COOL, { 1000, 0 }, { NO, NO, NO } },
    { EQUAL, { 0, 6 }, { 0, 0, 1 } },     { EQUAL, { 0, 7 }, { 1, 1, 5 } },     { EQUAL, { 0, 8 }, { 5, 5, NO } },
    { END, { 0, MAX - 1 }, { NO, 0, 0 } }, { END, { 0, MAX }, { 0, 0, 1 } },     { LINES, { 1, 0 }, { NO, 0, 0 } },
    { LINES, { 2, 5 }, { NO, NO, NO } },  { LINES, { 3, 0 }, { NO, 1, 1 } },    { LINES, { 3, 1 }, { 1, 1, 1 } },
    { LINES, { 4, 0 }, { NO, NO, NO } },
};

static void looking_up(void) {
    static const uint32_t BIASES[3] = { SMAP_BEFORE, SMAP_CLAMPED, SMAP_AFTER };
    CHECK(SMAP_BEFORE == 0 && SMAP_CLAMPED == 1 && SMAP_AFTER == 2);
    for (size_t i = 0; i < LEN(LOOKUPS); i++) {
        smap_map *map = map_at(LOOKUPS[i].tokens, LOOKUPS[i].len);
        for (int k = 0; k < 3; k++) {
            uint32_t wanted = LOOKUPS[i].found[k], index = 77;
            smap_original p, q;
            smap_fault fault = junk();
            CHECK(smap_trace(map, LOOKUPS[i].at.line, LOOKUPS[i].at.column, BIASES[k], &p, &fault) == SMAP_OK && is_none(&fault));
            CHECK_ROW(p.index == wanted &&
                p.kind == (uint32_t)(wanted == NO ? SMAP_NOTHING : SMAP_MAPPED), (int)i, "the token of a lookup");
            CHECK(wanted == NO || (p.token.src_line == wanted && p.token.dst_col == LOOKUPS[i].tokens[wanted].column));
            CHECK(smap_find_all(map, &LOOKUPS[i].at, 1, BIASES[k], &index, 1, NULL) == SMAP_OK && index == wanted);
            CHECK(smap_trace_all(map, &LOOKUPS[i].at, 1, BIASES[k], &q, 1, NULL) == SMAP_OK && is_same(&p, &q));
        }
        smap_free_map(map);
    }
}

/* The token that answers for a position, found by a walk over all of a map whose columns rise. */
static uint32_t walked(const smap_token *tokens, uint32_t len, uint32_t line, uint32_t column, uint32_t bias) {
    uint32_t before = NO, after = NO, first = NO;
    for (uint32_t i = 0; i < len; i++) {
        if (tokens[i].dst_line != line) continue;
        if (first == NO) first = i;
        if (tokens[i].dst_col <= column) before = i;
        if (tokens[i].dst_col >= column && after == NO) after = i;
    }
    return bias == SMAP_AFTER ? after : bias == SMAP_CLAMPED && before == NO ? first : before;
}

/* Lookups in a map of so many tokens that their columns are kept by themselves. */
static void looking_up_among_many(void) {
    smap_token tokens[100];
    smap_text names[1] = { text_of("n") }, sources[1] = { text_of("a") };
    smap_map *map;
    for (uint32_t i = 0; i < 100; i++)
        tokens[i] = token_of(i / 3 * 2, i % 3 * 4 + 1, i, 0, i % 4 ? 0 : NO, i % 8 && i % 3 ? NO : 0);
    CHECK(smap_from_tokens(LIST(tokens), LIST(names), LIST(sources), NULL, 0, NULL, 0, &map, NULL) == SMAP_OK);
    for (uint32_t at = 0; at < 70 * 12 * 3; at++) {
        smap_position place = { at / 36, at / 3 % 12 };
        uint32_t bias = at % 3, wanted = walked(tokens, 100, place.line, place.column, bias), index = 77;
        const smap_token *token = wanted == NO ? NULL : &tokens[wanted];
        int has_source = token && token->source_id != NO, has_name = token && token->name_id != NO;
        uint32_t kind = (uint32_t)(!token ? SMAP_NOTHING : !has_source ? SMAP_UNMAPPED : !has_name ? SMAP_MAPPED : SMAP_NAMED);
        smap_original p, q;
        smap_fault fault = junk();
        memset(&p, 7, sizeof p);
        CHECK(smap_trace(map, place.line, place.column, bias, &p, &fault) == SMAP_OK && is_none(&fault));
        CHECK_ROW(p.index == wanted && p.kind == kind && (!token || memcmp(&p.token, token, sizeof p.token) == 0), (int)at, "a token");
        CHECK_ROW(is(&p.source, has_source ? "a" : "") && is(&p.name, has_name ? "n" : ""), (int)at, "the texts of a token");
        CHECK(smap_find_all(map, &place, 1, bias, &index, 1, NULL) == SMAP_OK && index == wanted);
        memset(&q, 7, sizeof q);
        CHECK(smap_trace_all(map, &place, 1, bias, &q, 1, NULL) == SMAP_OK && is_same(&p, &q));
    }
    smap_free_map(map);
}

static void tracing(void) {
    smap_map *map = read_map(A);
    smap_fault fault = junk();
    smap_original p;
    CHECK(SMAP_NOTHING == 0 && SMAP_UNMAPPED == 1 && SMAP_MAPPED == 2 && SMAP_NAMED == 3);
    CHECK(smap_trace(map, 0, 4, SMAP_BEFORE, &p, &fault) == SMAP_OK && p.kind == SMAP_NAMED && p.index == 1 && is_none(&fault));
    CHECK(p.token.dst_line == 0 && p.token.dst_col == 3 && p.token.src_line == 0 && p.token.src_col == 9);
    CHECK(p.token.source_id == 0 && p.token.name_id == 0 && is(&p.source, "a.ts") && is(&p.name, "hi"));
    CHECK(smap_trace(map, 0, 2, SMAP_BEFORE, &p, NULL) == SMAP_OK && p.kind == SMAP_MAPPED && p.token.name_id == SMAP_NO_ID);
    CHECK(is(&p.source, "a.ts") && is(&p.name, ""));
    CHECK(smap_trace(map, 0, MAX, SMAP_BEFORE, &p, NULL) == SMAP_OK && p.kind == SMAP_UNMAPPED && p.index == 2 &&
          p.token.dst_col == 8);
    CHECK(p.token.source_id == SMAP_NO_ID && p.token.name_id == SMAP_NO_ID && is(&p.source, "") && is(&p.name, ""));
    memset(&p, 7, sizeof p);
    CHECK(smap_trace(map, 1, 0, SMAP_BEFORE, &p, NULL) == SMAP_OK && p.kind == SMAP_NOTHING && p.index == SMAP_NO_ID);
    CHECK(p.token.dst_line == 0 && p.token.dst_col == 0 && p.token.src_line == 0 && p.token.src_col == 0 && is(&p.source, ""));
    CHECK(p.token.source_id == SMAP_NO_ID && p.token.name_id == SMAP_NO_ID && is(&p.name, ""));
    CHECK(smap_trace(map, 1, 0, SMAP_CLAMPED, &p, NULL) == SMAP_OK && p.kind == SMAP_NAMED && is(&p.source, "b.ts") &&
          p.index == 3);
    CHECK(smap_trace(map, 1, 0, SMAP_AFTER, &p, NULL) == SMAP_OK && p.index == 3);
    CHECK(smap_trace(map, MAX, 0, SMAP_CLAMPED, &p, NULL) == SMAP_OK && p.kind == SMAP_NOTHING);
    CHECK(smap_trace(map, 0, 0, 3, &p, &fault) == SMAP_BAD_OPTION && is_fault(&fault, SMAP_BAD_OPTION, 0) &&
          p.kind == SMAP_NOTHING);
    CHECK(smap_trace(map, 0, 0, 3, &p, NULL) == SMAP_BAD_OPTION && p.kind == SMAP_NOTHING);
    CHECK(smap_trace(NULL, 0, 0, SMAP_BEFORE, &p, NULL) == SMAP_NULL_HANDLE && p.kind == SMAP_NOTHING);
    smap_free_map(map);
}

static void tracing_all(void) {
    smap_map *map = read_map(A);
    smap_fault fault = junk();
    smap_position positions[6] = { { 1, 0 }, { 0, 4 }, { MAX, 0 }, { 0, 2 }, { 0, MAX }, { 0, 4 } };
    smap_original all[7], one;
    uint32_t found[7];
    memset(all, 7, sizeof all);
    memset(found, 7, sizeof found);
    CHECK(smap_trace_all(map, positions, 6, SMAP_BEFORE, all, 7, &fault) == SMAP_LENGTHS && is_fault(&fault, SMAP_LENGTHS, 0));
    CHECK(smap_find_all(map, positions, 6, SMAP_BEFORE, found, 5, &fault) == SMAP_LENGTHS && is_fault(&fault, SMAP_LENGTHS, 0));
    CHECK(smap_trace_all(map, positions, 6, 3, all, 6, &fault) == SMAP_BAD_OPTION && is_fault(&fault, SMAP_BAD_OPTION, 0));
    CHECK(smap_find_all(map, positions, 6, 3, found, 6, &fault) == SMAP_BAD_OPTION && is_fault(&fault, SMAP_BAD_OPTION, 0));
    CHECK(all[0].kind == 0x07070707 && found[0] == 0x07070707);
    for (uint32_t bias = SMAP_BEFORE; bias <= SMAP_AFTER; bias++) {
        CHECK(smap_trace_all(map, positions, 6, bias, all, 6, &fault) == SMAP_OK && is_none(&fault) && all[6].kind == 0x07070707);
        CHECK(smap_find_all(map, positions, 6, bias, found, 6, &fault) == SMAP_OK && is_none(&fault) && found[6] == 0x07070707);
        for (int i = 0; i < 6; i++) {
            CHECK(smap_trace(map, positions[i].line, positions[i].column, bias, &one, NULL) == SMAP_OK);
            CHECK(is_same(&one, &all[i]) && one.index == found[i]);
        }
    }
    CHECK(smap_trace_all(map, NULL, 0, SMAP_BEFORE, NULL, 0, NULL) == SMAP_OK &&
          smap_find_all(map, NULL, 0, SMAP_BEFORE, NULL, 0, NULL) == SMAP_OK);
    smap_free_map(map);
}

/* A map whose lines go back. */
static void lines_back(void) {
    const smap_position back[3] = { { 2, 5 }, { 4, 0 }, { 1, 0 } };
    smap_map *map = map_at(back, 3), *out = (smap_map *)&failed;
    smap_string *string = (smap_string *)&failed;
    smap_fault fault = junk();
    smap_original p;
    smap_position first;
    smap_piece piece;
    size_t count;
    uint32_t index, is_so;
    CHECK(smap_is_sorted(map, &is_so) == SMAP_OK && is_so == 0 && smap_is_sound(map, &is_so) == SMAP_OK && is_so == 0);
    CHECK(smap_trace(map, 1, 0, SMAP_BEFORE, &p, &fault) == SMAP_LINE_ORDER && is_fault(&fault, SMAP_LINE_ORDER, 2));
    CHECK(smap_trace_all(map, back, 1, SMAP_CLAMPED, &p, 1, &fault) == SMAP_LINE_ORDER && is_fault(&fault, SMAP_LINE_ORDER, 2));
    CHECK(smap_trace_all(map, NULL, 0, SMAP_AFTER, NULL, 0, &fault) == SMAP_LINE_ORDER);
    CHECK(smap_find_all(map, back, 1, SMAP_BEFORE, &index, 1, &fault) == SMAP_LINE_ORDER && is_fault(&fault, SMAP_LINE_ORDER, 2));
    CHECK(smap_find_all(map, NULL, 0, SMAP_BEFORE, NULL, 0, NULL) == SMAP_LINE_ORDER);
    CHECK(smap_to_json_string(map, &string, &fault) == SMAP_LINE_ORDER && is_fault(&fault, SMAP_LINE_ORDER, 2));
    CHECK(smap_to_data_url(map, &string, &fault) == SMAP_LINE_ORDER && smap_get_mappings(map, &string, &fault) == SMAP_LINE_ORDER);
    CHECK(smap_visualizer_url(map, "", 0, &string, &fault) == SMAP_LINE_ORDER && is_fault(&fault, SMAP_LINE_ORDER, 2));
    CHECK(smap_simplify(map, &fault) == SMAP_UNSORTED && is_fault(&fault, SMAP_UNSORTED, 0));
    CHECK(smap_compose(map, map, &out, &fault) == SMAP_LINE_ORDER && is_fault(&fault, SMAP_LINE_ORDER, 2));
    CHECK(out == (smap_map *)&failed && string == (smap_string *)&failed);
    CHECK(smap_pieces(map, at(0, 0), at(9, 9), &piece, 1, &count) == SMAP_OK &&
          smap_first_difference(map, map, &first) != SMAP_NULL_HANDLE);
    CHECK(smap_sort(map, &fault) == SMAP_OK && is_none(&fault) && smap_is_sorted(map, &is_so) == SMAP_OK && is_so == 1);
    CHECK(smap_is_sound(map, &is_so) == SMAP_OK && is_so == 1 && smap_sort(map, NULL) == SMAP_OK);
    CHECK(made(map, "{\"version\":3,\"names\":[],\"sources\":[\"a\"],\"mappings\":\";AAEA;KAFA;;AACA\"}"));
}

void test_lookups(void) {
    looking_up();
    looking_up_among_many();
    tracing();
    tracing_all();
    lines_back();
}

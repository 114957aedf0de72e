/* Pieces of a range, differences of two maps, and lookups by an original position. */
#include "tests.h"

static const struct {
    smap_position tokens[6];
    size_t len;
    smap_position begin, end, cuts[5];
    size_t pieces;
    uint32_t found[6];
} PIECES[] = {
#define THREE { { 0, 1 }, { 0, 1 }, { 0, 2 } }, 3
#define FIVE { { 0, 2 }, { 0, 5 }, { 0, 5 }, { 0, 5 }, { 0, 9 } }, 5
#define FAR { { 0, 4 }, { 2, 0 }, { 2, 7 } }, 3
    { { { 0, 0 } }, 0, { 0, 0 }, { 7, 3 }, { { 0, 0 } }, 1, { NO } },
    { { { 0, 3 } }, 1, { 0, 5 }, { 1, 6 }, { { 1, 0 } }, 2, { 0, NO } },
    { FIVE, { 0, 0 }, { 0, 12 }, { { 0, 2 }, { 0, 5 }, { 0, 6 }, { 0, 9 } }, 5, { NO, 0, 1, 3, 4 } },
    { FIVE, { 0, 5 }, { 0, 8 }, { { 0, 6 } }, 2, { 1, 3 } },
    { THREE, { 0, 0 }, { 0, 4 }, { { 0, 1 }, { 0, 2 } }, 3, { NO, 0, 2 } },
    { FAR, { 0, 0 }, { 5, 1 }, { { 0, 4 }, { 1, 0 }, { 2, 0 }, { 2, 7 }, { 3, 0 } }, 6, { NO, 0, NO, 1, 2, NO } },
    { FAR, { 0, 5 }, { 0, 5 }, { { 0, 0 } }, 0, { NO } },
    { FAR, { 1, 0 }, { 0, MAX }, { { 0, 0 } }, 0, { NO } },
};

static void pieces(void) {
    for (size_t i = 0; i < LEN(PIECES); i++) {
        smap_map *map = map_at(PIECES[i].tokens, PIECES[i].len);
        smap_piece out[7];
        size_t count = 77, wanted = PIECES[i].pieces;
        CHECK(smap_pieces(map, PIECES[i].begin, PIECES[i].end, NULL, 0, &count) == SMAP_OK && count == wanted);
        memset(out, 7, sizeof out);
        CHECK(smap_pieces(map, PIECES[i].begin, PIECES[i].end, LIST(out), &count) == SMAP_OK && count == wanted);
        for (size_t k = 0; k < wanted; k++) {
            smap_position begin = k ? PIECES[i].cuts[k - 1] : PIECES[i].begin,
                end = k + 1 < wanted ? PIECES[i].cuts[k] : PIECES[i].end;
            CHECK_ROW(out[k].begin.line == begin.line && out[k].begin.column == begin.column, (int)i, "the beginning of a piece");
            CHECK_ROW(out[k].end.line == end.line && out[k].end.column == end.column, (int)i, "the end of a piece");
            CHECK_ROW(out[k].index == PIECES[i].found[k], (int)i, "the token of a piece");
        }
        CHECK(out[wanted].index == 0x07070707);
        memset(out, 7, sizeof out);
        CHECK(smap_pieces(map, PIECES[i].begin, PIECES[i].end, out, 1, &count) == SMAP_OK && count == wanted &&
              out[1].index == 0x07070707);
        smap_free_map(map);
    }
}

static void differences(void) {
    const smap_position one[2] = { { 0, 1 }, { 1, 5 } }, two[1] = { { 0, 1 } };
    smap_map *map = map_at(one, 2), *other = map_at(two, 1), *renamed = read_map(A);
    smap_position first = at(77, 77);
    CHECK(smap_first_difference(map, map, &first) == SMAP_NO_ENTRY && first.line == 77);
    CHECK(smap_first_difference(map, other, &first) == SMAP_OK && first.line == 1 && first.column == 5);
    CHECK(smap_first_difference(other, map, &first) == SMAP_OK && first.line == 1 && first.column == 5);
    CHECK(smap_first_difference(other, renamed, &first) == SMAP_OK && first.line == 0 && first.column == 0);
    smap_free_map(map);
    smap_free_map(other);
    smap_free_map(renamed);
}

/* Tokens of two sources, three of them at a column of source 1 and three at another, worked by hand. */
const smap_token REVERSED[6] = { { 0, 0, 0, 4, 1, NO }, { 0, 3, 0, 9, 1, NO }, { 0, 4, 0, 4, NO, NO },
                                        { 0, 5, 0, 4, 0, NO }, { 0, 6, 0, 4, 1, NO }, { 0, 8, 0, 9, 1, NO } };

/* A source, a line and a column; and for each direction how many tokens there are, and which. */
static const struct {
    uint32_t source_id, line, column;
    size_t count[4];
    uint32_t found[4][4];
} REVERSE[] = {
    { 1, 0, 4, { 2, 2, 2, 4 }, { { 0, 4 }, { 0, 4 }, { 0, 4 }, { 0, 1, 4, 5 } } },
    { 1, 0, 8, { 0, 2, 2, 4 }, { { 0 }, { 0, 4 }, { 1, 5 }, { 0, 1, 4, 5 } } },
    { 1, 0, 3, { 0, 0, 2, 4 }, { { 0 }, { 0 }, { 0, 4 }, { 0, 1, 4, 5 } } },
    { 1, 0, 10, { 0, 2, 0, 4 }, { { 0 }, { 1, 5 }, { 0 }, { 0, 1, 4, 5 } } },
    { 0, 0, 4, { 1, 1, 1, 1 }, { { 3 }, { 3 }, { 3 }, { 3 } } },
    { NO, 0, 4, { 0, 0, 0, 0 }, { { 0 }, { 0 }, { 0 }, { 0 } } },
    { 1, 1, 0, { 0, 0, 0, 0 }, { { 0 }, { 0 }, { 0 }, { 0 } } },
};

static void reverse_lookup(const smap_map *map, size_t i, uint32_t direction, int k) {
    uint32_t out[5] = { 77, 77, 77, 77, 77 }, index = 77;
    size_t count = 77, wanted = REVERSE[i].count[k];
    smap_token token = token_of(7, 7, 7, 7, 7, 7);
    CHECK(smap_all_generated(map, REVERSE[i].source_id, REVERSE[i].line, REVERSE[i].column, direction, LIST(out),
          &count) == SMAP_OK);
    CHECK_ROW(count == wanted && out[wanted] == 77, (int)i, "how many tokens answer");
    CHECK_ROW(memcmp(out, REVERSE[i].found[k], wanted * sizeof *out) == 0, (int)(10 * i) + k, "the tokens that answer");
    CHECK(smap_all_generated(map, REVERSE[i].source_id, REVERSE[i].line, REVERSE[i].column, direction, NULL, 0, &count) == SMAP_OK &&
          count == wanted);
    uint32_t code = smap_generated(map, REVERSE[i].source_id, REVERSE[i].line, REVERSE[i].column, direction, &index, &token);
    if (wanted == 0) CHECK(code == SMAP_NO_ENTRY && index == 77 && token.dst_line == 7);
    else CHECK(code == SMAP_OK && index == REVERSE[i].found[k][0] && memcmp(&token, &REVERSED[index], sizeof token) == 0);
}

static void reverse(void) {
    static const uint32_t DIRECTIONS[4] = { SMAP_AT, SMAP_FOR, SMAP_FROM, SMAP_ON_LINE };
    smap_text sources[2] = { text_of("a"), text_of("b") };
    smap_map *map;
    smap_fault fault = junk();
    smap_token token;
    uint32_t index;
    size_t count;
    CHECK(SMAP_AT == 0 && SMAP_FOR == 1 && SMAP_FROM == 2 && SMAP_ON_LINE == 3);
    CHECK(smap_from_tokens(LIST(REVERSED), NULL, 0, LIST(sources), NULL, 0, NULL, 0, &map, NULL) == SMAP_OK);
    CHECK(smap_generated(map, 1, 0, 4, SMAP_AT, &index, &token) == SMAP_NO_INDEX);
    CHECK(smap_all_generated(map, 1, 0, 4, SMAP_AT, NULL, 0, &count) == SMAP_NO_INDEX);
    CHECK(smap_generated(map, 1, 0, 4, 4, &index, &token) == SMAP_BAD_OPTION);
    CHECK(smap_index_sources(map, &fault) == SMAP_OK && is_none(&fault) && smap_index_sources(map, NULL) == SMAP_OK);
    for (size_t i = 0; i < LEN(REVERSE); i++)
        for (int k = 0; k < 4; k++) reverse_lookup(map, i, DIRECTIONS[k], k);
    CHECK(smap_generated(map, 1, 0, 4, 4, &index, &token) == SMAP_BAD_OPTION);
    CHECK(smap_all_generated(map, 1, 0, 4, 4, NULL, 0, &count) == SMAP_BAD_OPTION);
    CHECK(smap_sort(map, NULL) == SMAP_OK && smap_generated(map, 1, 0, 4, SMAP_AT, &index, &token) == SMAP_NO_INDEX);
    smap_free_map(map);
}

void test_queries(void) {
    pieces();
    differences();
    reverse();
}

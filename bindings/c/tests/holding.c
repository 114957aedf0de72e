/* What a map holds, and maps of lists. */
#include "tests.h"

static void holding(void) {
    smap_map *map = read_map(A), *none = read_map(EMPTY);
    smap_counts counts;
    smap_text text;
    smap_token token;
    uint32_t number;
    CHECK(smap_get_counts(map, &counts) == SMAP_OK && counts.tokens == 4 && counts.names == 2 && counts.sources == 2);
    CHECK(counts.source_contents == 2 && counts.ignore_list == 1 && counts.lines == 2 && counts.bytes > 4 * sizeof token);
    CHECK(smap_get_counts(none, &counts) == SMAP_OK && counts.tokens == 0 && counts.names == 0 && counts.lines == 0);
    smap_free_map(none);
    none = read_map("{\"version\":3,\"names\":[\"a\",\"b\",\"c\",\"d\"],\"sources\":[\"a\",\"b\",\"c\"],\"sourcesContent\":[\"\",\"\"],"
                    "\"ignoreList\":[1],\"mappings\":\";;;;;A,C,C,C,C\"}");
    CHECK(smap_get_counts(none, &counts) == SMAP_OK && counts.tokens == 5 && counts.names == 4 && counts.sources == 3);
    CHECK(counts.source_contents == 2 && counts.ignore_list == 1 && counts.lines == 6);
    CHECK(smap_is_sorted(map, &number) == SMAP_OK && number == 1);
    CHECK(smap_is_sound(map, &number) == SMAP_OK && number == 1);
    CHECK(smap_get_name(map, 0, &text) == SMAP_OK && is(&text, "hi"));
    CHECK(smap_get_name(map, 1, &text) == SMAP_OK && is(&text, "gr\xc3\xb6\xc3\x9f" "e"));
    CHECK(smap_get_name(map, 2, &text) == SMAP_NO_ENTRY && is(&text, "gr\xc3\xb6\xc3\x9f" "e"));
    CHECK(smap_get_name(map, UINT32_MAX, &text) == SMAP_NO_ENTRY);
    CHECK(smap_get_source(map, 0, &text) == SMAP_OK && is(&text, "a.ts"));
    CHECK(smap_get_source(map, 1, &text) == SMAP_OK && is(&text, "b.ts"));
    CHECK(smap_get_source(map, 2, &text) == SMAP_NO_ENTRY);
    CHECK(smap_get_source_content(map, 0, &text) == SMAP_OK && is(&text, "let hi;"));
    CHECK(smap_get_source_content(map, 1, &text) == SMAP_NO_ENTRY && is(&text, "let hi;"));
    CHECK(smap_get_file(map, &text) == SMAP_OK && is(&text, "out.js"));
    CHECK(smap_get_source_root(map, &text) == SMAP_OK && is(&text, "src/"));
    CHECK(smap_get_debug_id(map, &text) == SMAP_OK && is(&text, "d-1"));
    CHECK(smap_get_file(none, &text) == SMAP_NO_ENTRY && smap_get_source_root(none, &text) == SMAP_NO_ENTRY);
    CHECK(smap_get_debug_id(none, &text) == SMAP_NO_ENTRY && is(&text, "d-1"));
    CHECK(smap_get_token(map, 1, &token) == SMAP_OK && token.dst_line == 0 && token.dst_col == 3 && token.src_line == 0);
    CHECK(token.src_col == 9 && token.source_id == 0 && token.name_id == 0);
    CHECK(smap_get_token(map, 3, &token) == SMAP_OK && token.dst_line == 1 && token.dst_col == 1 && token.src_line == 1);
    CHECK(token.src_col == 0 && token.source_id == 1 && token.name_id == 1);
    CHECK(smap_get_token(map, 2, &token) == SMAP_OK && token.dst_col == 8 && token.source_id == SMAP_NO_ID &&
          token.name_id == SMAP_NO_ID);
    CHECK(smap_get_token(map, 4, &token) == SMAP_NO_ENTRY && token.dst_col == 8);
    smap_free_map(map);
    smap_free_map(none);
}

/* Lists: as many entries as fit, the number of all, and nothing behind them. */
static void lists(void) {
    smap_map *map = read_map(A);
    smap_token tokens[5], one;
    smap_text texts[3];
    uint32_t ids[2] = { 77, 77 };
    size_t count = 77;
    memset(tokens, 7, sizeof tokens);
    CHECK(smap_get_tokens(map, LIST(tokens), &count) == SMAP_OK && count == 4 && tokens[4].dst_line == 0x07070707);
    for (uint32_t i = 0; i < 4; i++) CHECK(smap_get_token(map, i, &one) == SMAP_OK && memcmp(&one, &tokens[i], sizeof one) == 0);
    memset(tokens, 7, sizeof tokens);
    CHECK(smap_get_tokens(map, tokens, 2, &count) == SMAP_OK && count == 4 && tokens[1].src_col == 9 &&
          tokens[2].dst_line == 0x07070707);
    CHECK(smap_get_tokens(map, NULL, 0, &count) == SMAP_OK && count == 4);
    texts[1] = texts[2] = text_of("kept");
    CHECK(smap_get_names(map, texts, 1, &count) == SMAP_OK && count == 2 && is(&texts[0], "hi") && is(&texts[1], "kept"));
    CHECK(smap_get_names(map, texts, 3, &count) == SMAP_OK && count == 2 && is(&texts[1], "gr\xc3\xb6\xc3\x9f" "e") &&
          is(&texts[2], "kept"));
    CHECK(smap_get_names(map, NULL, 0, &count) == SMAP_OK && count == 2);
    CHECK(smap_get_sources(map, texts, 3, &count) == SMAP_OK && count == 2 && is(&texts[0], "a.ts") && is(&texts[1], "b.ts"));
    CHECK(is(&texts[2], "kept") && smap_get_sources(map, NULL, 0, &count) == SMAP_OK && count == 2);
    CHECK(smap_get_source_contents(map, texts, 3, &count) == SMAP_OK && count == 2 && is(&texts[0], "let hi;") &&
          texts[1].at == NULL);
    CHECK(texts[1].len == 0 && is(&texts[2], "kept") && smap_get_source_contents(map, NULL, 0, &count) == SMAP_OK && count == 2);
    CHECK(smap_get_ignore_list(map, ids, 2, &count) == SMAP_OK && count == 1 && ids[0] == 1 && ids[1] == 77);
    CHECK(smap_get_ignore_list(map, NULL, 0, &count) == SMAP_OK && count == 1);
    smap_free_map(map);
    map = read_map(EMPTY);
    count = 77;
    CHECK(smap_get_ignore_list(map, ids, 2, &count) == SMAP_NO_ENTRY && count == 77 && ids[0] == 1);
    CHECK(smap_set_ignore_list(map, NULL, 0, NULL) == SMAP_OK && smap_get_ignore_list(map, NULL, 0, &count) == SMAP_OK &&
          count == 0);
    CHECK(smap_get_source_contents(map, texts, 3, &count) == SMAP_OK && count == 0);
    smap_free_map(map);
}

static void from_lists(void) {
    smap_map *map = (smap_map *)&failed;
    smap_fault fault = junk();
    smap_token tokens[4] = { token_of(0, 0, 0, 0, 0, SMAP_NO_ID), token_of(0, 3, 0, 9, 0, 0),
                             token_of(0, 8, 0, 0, SMAP_NO_ID, SMAP_NO_ID), token_of(1, 1, 1, 0, 1, 1) };
    smap_text names[2] = { text_of("hi"), text_of("gr\xc3\xb6\xc3\x9f" "e") }, sources[2] = { text_of("a.ts"), text_of("b.ts") };
    smap_text contents[2] = { text_of("let hi;"), text_of(NULL) }, bad[1] = { text_of("ab\xff") }, null[1] = { text_of(NULL) };
    uint32_t ids[2] = { 1, 2 };
    CHECK(smap_from_tokens(LIST(tokens), LIST(names), LIST(sources), LIST(contents), ids, 1, &map, &fault) == SMAP_OK &&
          is_none(&fault));
    CHECK(smap_set_file(map, TEXT("out.js"), NULL) == SMAP_OK && smap_set_source_root(map, TEXT("src/"), NULL) == SMAP_OK);
    CHECK(smap_set_debug_id(map, TEXT("d-1"), NULL) == SMAP_OK && made(map, A));
    CHECK(smap_from_tokens(NULL, 0, NULL, 0, NULL, 0, NULL, 0, NULL, 0, &map, NULL) == SMAP_OK && made(map, EMPTY));
    CHECK(smap_from_tokens(NULL, 0, null, 1, null, 1, null, 1, NULL, 0, &map, NULL) == SMAP_OK);
    CHECK(made(map, "{\"version\":3,\"names\":[\"\"],\"sources\":[\"\"],\"mappings\":\"\"}"));
    map = (smap_map *)&failed;
#define REFUSED(wanted, number, tokens_len, names, names_len, sources, sources_len, contents, contents_len, ids_len) \
    CHECK(smap_from_tokens(tokens, tokens_len, names, names_len, sources, sources_len, contents, contents_len, ids, ids_len, &map, \
                           &fault) == wanted && is_fault(&fault, wanted, number) && map == (smap_map *)&failed)
    REFUSED(SMAP_NOT_UTF8, 2, 4, bad, 1, sources, 0, contents, 0, 2);
    REFUSED(SMAP_NOT_UTF8, 2, 4, names, 2, bad, 1, contents, 0, 2);
    REFUSED(SMAP_NOT_UTF8, 2, 4, names, 2, sources, 0, bad, 1, 2);
    REFUSED(SMAP_BAD_SOURCE_REFERENCE, 1, 4, names, 1, sources, 1, contents, 2, 2);
    REFUSED(SMAP_BAD_NAME_REFERENCE, 1, 4, names, 1, sources, 2, contents, 2, 2);
    REFUSED(SMAP_BAD_SOURCE_REFERENCE, 2, 4, names, 2, sources, 2, contents, 2, 2);
    CHECK(smap_from_tokens(tokens, 4, names, 2, bad, 1, NULL, 0, NULL, 0, &map, NULL) == SMAP_NOT_UTF8);
}

/* As many as the layer has room for without a request for memory, and some more; each is known. */
static void long_lists_known(size_t len) {
    smap_text texts[18], out[18];
    smap_map *map;
    size_t count;
    for (size_t i = 0; i < len; i++) texts[i] = text_of("x");
    CHECK(smap_from_tokens(NULL, 0, texts, len, texts, len, texts, len, NULL, 0, &map, NULL) == SMAP_OK);
    for (int is_set = 0; is_set < 2; is_set++) {
        size_t known = 0;
        CHECK(smap_get_source_contents(map, LIST(out), &count) == SMAP_OK && count == len);
        for (size_t i = 0; i < len; i++) known += out[i].at && is(&out[i], "x");
        CHECK(known == len && smap_set_source_contents(map, texts, len, NULL) == SMAP_OK);
    }
    smap_free_map(map);
}

/* The same for maps: each has one token. */
static void long_lists_of_maps(size_t len) {
    smap_map *one = read_map(B), *map;
    const smap_map *maps[18];
    smap_position positions[18];
    smap_counts counts;
    for (uint32_t i = 0; i < len; i++) maps[i] = one, positions[i] = at(i, 0);
    CHECK(smap_join_all(maps, len, positions, len, &map, NULL) == SMAP_OK);
    CHECK(smap_get_counts(map, &counts) == SMAP_OK && counts.tokens == len && counts.lines == len);
    smap_free_map(map);
    smap_free_map(one);
}

/* More lists than the layer copies without memory. */
static void long_lists(void) {
    smap_text texts[40], out[40];
    smap_map *map;
    size_t count;
    for (size_t len = 15; len <= 18; len++) long_lists_known(len), long_lists_of_maps(len);
    for (int i = 0; i < 40; i++) texts[i] = text_of(i % 3 ? "x" : NULL);
    CHECK(smap_from_tokens(NULL, 0, LIST(texts), LIST(texts), LIST(texts), NULL, 0, &map, NULL) == SMAP_OK);
    CHECK(smap_get_names(map, LIST(out), &count) == SMAP_OK && count == 40 && is(&out[39], "") && is(&out[38], "x"));
    CHECK(smap_get_source_contents(map, LIST(out), &count) == SMAP_OK && count == 40 && out[39].at == NULL && is(&out[38], "x"));
    smap_free_map(map);
}

static void cloning(void) {
    smap_map *map = read_map(A), *copy;
    smap_fault fault = junk();
    smap_text text;
    CHECK(smap_clone(map, &copy, &fault) == SMAP_OK && is_none(&fault) && copy != map);
    CHECK(smap_set_file(copy, TEXT("other.js"), NULL) == SMAP_OK && smap_get_file(map, &text) == SMAP_OK && is(&text, "out.js"));
    CHECK(made(map, A) && smap_set_file(copy, TEXT("out.js"), NULL) == SMAP_OK && made(copy, A));
    map = read_map(B);
    CHECK(smap_clone(map, &copy, NULL) == SMAP_OK && made(map, B) && made(copy, B));
}

void test_holding(void) {
    holding();
    lists();
    from_lists();
    long_lists();
    cloning();
}

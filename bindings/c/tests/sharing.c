/* Shared maps, of several handles. */
#include "tests.h"

/* Whether a map answers as another by each bias, one by one and at once, and by original positions. */
static int answers_as(const smap_map *map, const smap_map *other) {
    smap_position places[5] = { { 0, 0 }, { 0, 4 }, { 0, 9 }, { 1, 0 }, { 1, 5 } }, first = { 77, 77 };
    smap_original p, q, all[5];
    uint32_t found[5], index = 77;
    smap_token token;
    size_t count;
    int is_so = smap_first_difference(map, other, &first) == SMAP_NO_ENTRY && first.line == 77;
    for (uint32_t bias = SMAP_BEFORE; bias <= SMAP_AFTER; bias++) {
        is_so &= smap_trace_all(map, LIST(places), bias, LIST(all), NULL) == SMAP_OK;
        is_so &= smap_find_all(map, LIST(places), bias, LIST(found), NULL) == SMAP_OK;
        for (size_t i = 0; i < LEN(places); i++) {
            is_so &= smap_trace(map, places[i].line, places[i].column, bias, &p, NULL) == SMAP_OK;
            is_so &= smap_trace(other, places[i].line, places[i].column, bias, &q, NULL) == SMAP_OK;
            is_so &= is_same(&p, &q) && is_same(&all[i], &q) && found[i] == q.index;
        }
    }
    is_so &= smap_generated(map, 0, 0, 9, SMAP_AT, &index, &token) == SMAP_OK && index == 1;
    return is_so && smap_all_generated(map, 1, 1, 0, SMAP_AT, found, 1, &count) == SMAP_OK && count == 1 && found[0] == 3;
}

/* A map stays, with its indices, until the last of its handles is freed, whichever that is. */
static void last_handle_frees(int last) {
    smap_map *map = read_map(A), *plain = read_map(A), *handles[3] = { map, (smap_map *)&failed, (smap_map *)&failed };
    smap_fault fault = junk();
    smap_counts before, after;
    CHECK(smap_index_sources(map, NULL) == SMAP_OK && smap_get_counts(map, &before) == SMAP_OK);
    CHECK(smap_retain_map(map, &handles[1], &fault) == SMAP_NOT_SHARED && is_fault(&fault, SMAP_NOT_SHARED, 0));
    CHECK(handles[1] == (smap_map *)&failed && smap_retain_map(map, &handles[1], NULL) == SMAP_NOT_SHARED);
    fault = junk();
    CHECK(smap_share_map(map, &fault) == SMAP_OK && is_none(&fault) && smap_share_map(map, NULL) == SMAP_OK);
    fault = junk();
    CHECK(smap_retain_map(map, &handles[1], &fault) == SMAP_OK && is_none(&fault));
    CHECK(smap_retain_map(handles[1], &handles[2], NULL) == SMAP_OK && smap_share_map(handles[2], NULL) == SMAP_OK);
    CHECK(handles[1] != map && handles[2] != map && handles[1] != handles[2]);
    for (int i = 0; i < 3; i++) CHECK(answers_as(handles[i], plain));
    for (int i = 0; i < 3; i++)
        if (i != last) smap_free_map(handles[i]);
    CHECK(smap_get_counts(handles[last], &after) == SMAP_OK && memcmp(&before, &after, sizeof before) == 0);
    CHECK(answers_as(handles[last], plain) && writes(handles[last], A));
    smap_free_map(handles[last]);
    smap_free_map(plain);
}

/* Each change is refused, whatever else is wrong; a copy takes it. */
static void no_call_changes_it(void) {
    smap_map *map = read_map(A), *copy;
    smap_fault fault = junk();
    smap_text bad[1] = { text_of("\xff") };
    smap_token token;
    uint32_t ids[1] = { 9 };
    CHECK(smap_share_map(map, NULL) == SMAP_OK);
#define REFUSED(call) CHECK((call) == SMAP_SHARED && is_fault(&fault, SMAP_SHARED, 0)), fault = junk()
    REFUSED(smap_set_file(map, TEXT("\xff"), &fault));
    REFUSED(smap_set_source_root(map, TEXT("r"), &fault));
    REFUSED(smap_set_debug_id(map, TEXT("\xff"), &fault));
    REFUSED(smap_set_ignore_list(map, LIST(ids), &fault));
    REFUSED(smap_set_sources(map, LIST(bad), &fault));
    REFUSED(smap_set_source_contents(map, LIST(bad), &fault));
    REFUSED(smap_apply_source_root(map, &fault));
    REFUSED(smap_sort(map, &fault));
    REFUSED(smap_simplify(map, &fault));
    REFUSED(smap_index_sources(map, &fault));
    CHECK(smap_sort(map, NULL) == SMAP_SHARED && writes(map, A));
    CHECK(smap_generated(map, 0, 0, 9, SMAP_AT, ids, &token) == SMAP_NO_INDEX && ids[0] == 9);
    CHECK(smap_clone(map, &copy, NULL) == SMAP_OK && writes(copy, A));
    CHECK(smap_retain_map(copy, &copy, NULL) == SMAP_NOT_SHARED && smap_index_sources(copy, NULL) == SMAP_OK);
    CHECK(smap_set_file(copy, TEXT("f"), NULL) == SMAP_OK && smap_get_file(copy, bad) == SMAP_OK && is(bad, "f") && writes(map, A));
    smap_free_map(copy);
    smap_free_map(map);
}

/* Calls that make something take shared maps as others. */
static void makes_of_it(void) {
    smap_map *map = read_map(B), *input = read_map(C), *wanted = NULL, *made_of = NULL;
    const smap_map *maps[2] = { map, map };
    smap_position places[2] = { { 0, 0 }, { 5, 0 } };
    smap_text path = text_of("a.js");
    smap_join *join = NULL;
    smap_string *bytes = NULL;
#define MADE_SO(call) CHECK((call) == SMAP_OK && smap_first_difference(wanted, made_of, places) == SMAP_NO_ENTRY), smap_free_map(made_of)
    CHECK(smap_compose(map, input, &wanted, NULL) == SMAP_OK);
    CHECK(smap_share_map(map, NULL) == SMAP_OK && smap_share_map(input, NULL) == SMAP_OK);
    MADE_SO(smap_compose(map, input, &made_of, NULL));
    MADE_SO(smap_remap(map, &path, 1, (const smap_map *const *)&input, 1, &made_of, NULL));
    smap_free_map(wanted);
    CHECK(smap_join_all(maps, 2, places, 2, &wanted, NULL) == SMAP_OK && smap_join_new(&join, NULL) == SMAP_OK);
    CHECK(smap_join_add(join, map, 0, 0, NULL) == SMAP_OK && smap_join_add(join, map, 5, 0, NULL) == SMAP_OK);
    MADE_SO(smap_join_finish(join, &made_of, NULL));
    CHECK(smap_compile(map, 0, NULL, &bytes, NULL) == SMAP_OK);
    smap_free_string(bytes);
    smap_free_join(join);
    smap_free_map(wanted);
    smap_free_map(input);
    smap_free_map(map);
}

/* Without memory a map is not shared, and takes changes; there is no other handle; and what is shared is so without memory. */
static void shares_without_memory(void) {
    const long held = kept;
    smap_map *map = read_map(A), *other = (smap_map *)&failed;
    smap_fault fault = junk();
    long n = 0;
    for (; left = n, smap_share_map(map, &fault) == SMAP_OUT_OF_MEMORY && n < 9; n++) {
        left = -1;
        CHECK(is_fault(&fault, SMAP_OUT_OF_MEMORY, 0) && smap_retain_map(map, &other, NULL) == SMAP_NOT_SHARED);
        CHECK(smap_set_file(map, TEXT("out.js"), NULL) == SMAP_OK && writes(map, A));
    }
    left = -1;
    CHECK(n > 0 && n < 9 && is_none(&fault));
    for (n = 0; left = n, smap_retain_map(map, &other, &fault) == SMAP_OUT_OF_MEMORY && n < 9; n++)
        CHECK(is_fault(&fault, SMAP_OUT_OF_MEMORY, 0) && other == (smap_map *)&failed);
    CHECK(n > 0 && n < 9 && is_none(&fault));
    left = 0;
    CHECK(smap_share_map(map, NULL) == SMAP_OK && smap_sort(map, NULL) == SMAP_SHARED && left == 0);
    left = -1;
    smap_free_map(map);
    CHECK(writes(other, A));
    smap_free_map(other);
    CHECK(kept == held);
}

static void null_maps(void) {
    smap_map *out = (smap_map *)&failed;
    smap_fault fault = junk();
    CHECK(smap_share_map(NULL, &fault) == SMAP_NULL_HANDLE && is_fault(&fault, SMAP_NULL_HANDLE, 0));
    fault = junk();
    CHECK(smap_retain_map(NULL, &out, &fault) == SMAP_NULL_HANDLE && is_fault(&fault, SMAP_NULL_HANDLE, 0));
    CHECK(smap_share_map(NULL, NULL) == SMAP_NULL_HANDLE && smap_retain_map(NULL, &out, NULL) == SMAP_NULL_HANDLE);
    CHECK(out == (smap_map *)&failed);
}

void test_sharing(void) {
    for (int last = 0; last < 3; last++) last_handle_frees(last);
    no_call_changes_it();
    makes_of_it();
    shares_without_memory();
    null_maps();
}

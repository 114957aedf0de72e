/* Maps that are changed, and made of other maps. */
#include "tests.h"

static void changing(void) {
    smap_map *map = read_map(A);
    smap_fault fault = junk();
    smap_text sources[2] = { text_of("x.ts"), text_of(NULL) }, contents[3] = { text_of(NULL), text_of(""), text_of("C") };
    smap_text bad[2] = { text_of("x.ts"), text_of("ab\xff") };
    uint32_t ids[2] = { 0, 7 };
    char file[4] = "f.c";
    CHECK(smap_set_file(map, TEXT(file), &fault) == SMAP_OK && is_none(&fault));
    memset(file, '#', 3); /* the map has a copy */
    CHECK(smap_set_source_root(map, TEXT("r"), &fault) == SMAP_OK && is_none(&fault));
    CHECK(smap_set_debug_id(map, NULL, 0, &fault) == SMAP_OK && is_none(&fault));
    CHECK(smap_set_ignore_list(map, LIST(ids), &fault) == SMAP_OK && is_none(&fault));
    CHECK(smap_set_sources(map, LIST(sources), &fault) == SMAP_OK && is_none(&fault));
    CHECK(smap_set_source_contents(map, LIST(contents), &fault) == SMAP_OK && is_none(&fault));
    CHECK(writes(map, "{\"version\":3,\"file\":\"f.c\",\"sourceRoot\":\"r\",\"names\":[\"hi\",\"gr\xc3\xb6\xc3\x9f" "e\"],\"sources\":[\"x.ts\",\"\"],"
                      "\"sourcesContent\":[null,\"\",\"C\"],\"ignoreList\":[0,7],\"mappings\":\"AAAA,GAASA,K;CCCTC\",\"debugId\":\"\"}"));
    CHECK(smap_set_file(map, TEXT("a\xff"), &fault) == SMAP_NOT_UTF8 && is_fault(&fault, SMAP_NOT_UTF8, 1));
    CHECK(smap_set_source_root(map, TEXT("\xff"), &fault) == SMAP_NOT_UTF8 && is_fault(&fault, SMAP_NOT_UTF8, 0));
    CHECK(smap_set_debug_id(map, TEXT("abc\xc3"), &fault) == SMAP_NOT_UTF8 && is_fault(&fault, SMAP_NOT_UTF8, 3));
    CHECK(smap_set_sources(map, LIST(bad), &fault) == SMAP_NOT_UTF8 && is_fault(&fault, SMAP_NOT_UTF8, 2));
    CHECK(smap_set_source_contents(map, LIST(bad), &fault) == SMAP_NOT_UTF8 && is_fault(&fault, SMAP_NOT_UTF8, 2));
    CHECK(smap_set_file(map, NULL, 0, NULL) == SMAP_OK && smap_set_source_root(map, NULL, 0, NULL) == SMAP_OK);
    CHECK(smap_set_debug_id(map, TEXT("d"), NULL) == SMAP_OK && smap_set_ignore_list(map, NULL, 0, NULL) == SMAP_OK);
    CHECK(smap_set_sources(map, NULL, 0, NULL) == SMAP_OK && smap_set_source_contents(map, NULL, 0, NULL) == SMAP_OK);
    CHECK(writes(map, "{\"version\":3,\"file\":\"\",\"sourceRoot\":\"\",\"names\":[\"hi\",\"gr\xc3\xb6\xc3\x9f" "e\"],\"sources\":[],"
                      "\"ignoreList\":[],\"mappings\":\"AAAA,GAASA,K;CCCTC\",\"debugId\":\"d\"}"));
    uint32_t is_so = 7;
    CHECK(smap_is_sorted(map, &is_so) == SMAP_OK && is_so == 1 && smap_is_sound(map, &is_so) == SMAP_OK && is_so == 0);
    smap_free_map(map);
}

static void remaking(void) {
    smap_map *map = read_map("{\"version\":3,\"sourceRoot\":\"pkg/a/src\",\"names\":[],\"sources\":[\"index.ts\",\"/b.ts\"],\"mappings\":\"AAAA\"}");
    smap_fault fault = junk();
    CHECK(smap_apply_source_root(map, &fault) == SMAP_OK && is_none(&fault) && smap_apply_source_root(map, NULL) == SMAP_OK);
    CHECK(made(map, "{\"version\":3,\"names\":[],\"sources\":[\"pkg/a/src/index.ts\",\"/b.ts\"],\"mappings\":\"AAAA\"}"));
    map = read_map("{\"version\":3,\"sources\":[\"a.js\"],\"mappings\":\"GAAA,HACA,GACA\"}");
    CHECK(smap_sort(map, &fault) == SMAP_OK && is_none(&fault));
    CHECK(made(map, "{\"version\":3,\"names\":[],\"sources\":[\"a.js\"],\"mappings\":\"AACA,GADA,AAEA\"}"));
    map = read_map("{\"version\":3,\"file\":\"out.js\",\"sourceRoot\":\"lib\",\"names\":[\"x\",\"y\",\"x\"],\"sources\":[\"a.js\",\"b.js\",\"a.js\"],"
                   "\"sourcesContent\":[\"let a\",null,\"let a\"],\"ignoreList\":[2],\"mappings\":\"AACEA,IEAAE,G,E;AAEF\"}");
    CHECK(smap_simplify(map, &fault) == SMAP_OK && is_none(&fault) && smap_simplify(map, NULL) == SMAP_OK);
    CHECK(made(map, "{\"version\":3,\"file\":\"out.js\",\"sourceRoot\":\"lib\",\"names\":[\"x\"],\"sources\":[\"a.js\",\"a.js\"],"
                    "\"sourcesContent\":[\"let a\",\"let a\"],\"ignoreList\":[1],\"mappings\":\"AACEA,O;ACEF\"}"));
    /* An index goes with the tokens that it is of. */
    uint32_t index;
    smap_token token;
    map = read_map(A);
    CHECK(smap_index_sources(map, NULL) == SMAP_OK && smap_generated(map, 0, 0, 9, SMAP_AT, &index, &token) == SMAP_OK &&
          index == 1);
    CHECK(smap_simplify(map, NULL) == SMAP_OK && smap_generated(map, 0, 0, 9, SMAP_AT, &index, &token) == SMAP_NO_INDEX);
    smap_free_map(map);
}

static void composing(void) {
    smap_map *map = read_map("{\"version\":3,\"file\":\"out.js\",\"names\":[\"p\"],\"sources\":[\"m\"],\"mappings\":\"AAACA\",\"debugId\":\"first\"}");
    smap_map *input = read_map("{\"version\":3,\"file\":\"m.js\",\"names\":[\"q\"],\"sources\":[\"n\"],\"ignoreList\":[],\"mappings\":\"AAAE,KAAFA\"}");
    smap_map *two = read_map(A), *out = NULL;
    smap_fault fault = junk();
    CHECK(smap_compose(map, input, &out, &fault) == SMAP_OK && is_none(&fault));
    CHECK(made(out, "{\"version\":3,\"file\":\"out.js\",\"names\":[\"q\",\"p\"],\"sources\":[\"n\"],\"ignoreList\":[],\"mappings\":\"AAAEC\","
                    "\"debugId\":\"first\"}"));
    out = (smap_map *)&failed;
    CHECK(smap_compose(two, input, &out, &fault) == SMAP_SEVERAL_SOURCES && is_fault(&fault, SMAP_SEVERAL_SOURCES, 2));
    CHECK(smap_compose(two, input, &out, NULL) == SMAP_SEVERAL_SOURCES && out == (smap_map *)&failed);
    CHECK(made(two, A)); /* nothing is eaten */
    smap_free_map(map);
    smap_free_map(input);
}

static void remapping(void) {
    smap_map *map = read_map("{\"version\":3,\"names\":[\"x\",\"y\"],\"sources\":[\"a.js\",\"b.js\"],\"mappings\":\"AAAAA,IAAIC;ACCA,KAAK\"}");
    smap_map *of_a = read_map("{\"version\":3,\"names\":[\"add\"],\"sources\":[\"a.ts\"],\"sourcesContent\":[\"let a\"],\"mappings\":\"AACEA,IAAE\"}");
    smap_map *of_b = read_map("{\"version\":3,\"sources\":[\"b.ts\",\"c.ts\"],\"ignoreList\":[1],\"mappings\":\";ACGC,K\"}");
    const smap_position positions[2] = { { 1, 0 }, { 0, 0 } };
    smap_map *back = map_at(positions, 2), *out = (smap_map *)&failed;
    const smap_map *inputs[3] = { of_a, of_b, back };
    smap_text paths[3] = { text_of("a.js"), text_of("b.js"), text_of(NULL) }, bad[1] = { text_of("\xff") };
    smap_fault fault = junk();
    CHECK(smap_remap(map, paths, 3, inputs, 2, &out, &fault) == SMAP_LENGTHS && is_fault(&fault, SMAP_LENGTHS, 0));
    CHECK(smap_remap(map, bad, 1, &inputs[2], 1, &out, &fault) == SMAP_NOT_UTF8 && is_fault(&fault, SMAP_NOT_UTF8, 0));
    CHECK(smap_remap(map, paths, 3, inputs, 3, &out, &fault) == SMAP_INPUT_LINE_ORDER &&
          is_fault(&fault, SMAP_INPUT_LINE_ORDER, 2));
    CHECK(out == (smap_map *)&failed && smap_remap(map, paths, 2, inputs, 2, &out, &fault) == SMAP_OK && is_none(&fault));
    CHECK(inputs[0] == of_a && inputs[1] == of_b);
    CHECK(made(out, "{\"version\":3,\"names\":[\"add\",\"y\"],\"sources\":[\"a.ts\",\"b.ts\",\"c.ts\"],\"sourcesContent\":[\"let a\",null,null],"
                    "\"ignoreList\":[2],\"mappings\":\"AACEA,IAAEC;AEEH,K\"}"));
    CHECK(smap_remap(of_a, NULL, 0, NULL, 0, &out, NULL) == SMAP_OK);
    CHECK(made(out, "{\"version\":3,\"names\":[\"add\"],\"sources\":[\"a.ts\"],\"sourcesContent\":[\"let a\"],\"mappings\":\"AACEA,IAAE\"}"));
    inputs[1] = NULL;
    CHECK(smap_remap(map, paths, 2, inputs, 2, &out, &fault) == SMAP_NULL_HANDLE && is_fault(&fault, SMAP_NULL_HANDLE, 0));
    smap_free_map(map);
    smap_free_map(of_a);
    smap_free_map(of_b);
    smap_free_map(back);
}

#define LEFT "{\"version\":3,\"sources\":[\"a.js\"],\"mappings\":\"AAAA,IAAI\"}"
#define RIGHT "{\"version\":3,\"sources\":[\"b.js\"],\"mappings\":\"AAAA;AACA\"}"
#define BOTH "{\"version\":3,\"names\":[],\"sources\":[\"a.js\",\"b.js\"],\"mappings\":\"AAAA,IAAI,MCAJ;AACA\"}"

static void joining(void) {
    smap_map *one = read_map(LEFT), *two = read_map(RIGHT), *out = (smap_map *)&failed;
    const smap_map *maps[20] = { one, two };
    smap_position positions[20] = { { 0, 0 }, { 0, 10 } };
    smap_fault fault = junk();
    smap_counts counts;
    CHECK(smap_join_all(maps, 1, positions, 2, &out, &fault) == SMAP_LENGTHS && is_fault(&fault, SMAP_LENGTHS, 0));
    CHECK(smap_join_all(maps, 3, positions, 3, &out, &fault) == SMAP_NULL_HANDLE && is_fault(&fault, SMAP_NULL_HANDLE, 0));
    positions[1].line = MAX;
    CHECK(smap_join_all(maps, 2, positions, 2, &out, &fault) == SMAP_TOO_LARGE && is_fault(&fault, SMAP_TOO_LARGE, 0));
    CHECK(smap_join_all(maps, 2, positions, 2, &out, NULL) == SMAP_TOO_LARGE && out == (smap_map *)&failed);
    positions[1].line = 0;
    CHECK(smap_join_all(maps, 2, positions, 2, &out, &fault) == SMAP_OK && is_none(&fault) && made(out, BOTH) && maps[0] == one);
    CHECK(smap_join_all(NULL, 0, NULL, 0, &out, NULL) == SMAP_OK && made(out, EMPTY));
    for (uint32_t i = 0; i < 20; i++) {
        maps[i] = i % 2 ? two : one;
        positions[i] = at(3 * i, 0);
    }
    CHECK(smap_join_all(maps, 20, positions, 20, &out, NULL) == SMAP_OK && smap_get_counts(out, &counts) == SMAP_OK);
    CHECK(counts.tokens == 40 && counts.sources == 20 && counts.lines == 59);
    smap_free_map(out);
    smap_free_map(one);
    smap_free_map(two);
}

static void joining_one_by_one(void) {
    smap_map *one = read_map(LEFT), *two = read_map(RIGHT), *out = (smap_map *)&failed;
    smap_join *join;
    smap_fault fault = junk();
    CHECK(smap_join_new(&join, &fault) == SMAP_OK && is_none(&fault));
    CHECK(smap_join_add(join, one, 0, 0, &fault) == SMAP_OK && is_none(&fault));
    CHECK(smap_join_add(join, two, MAX, 0, &fault) == SMAP_TOO_LARGE && is_fault(&fault, SMAP_TOO_LARGE, 0));
    CHECK(smap_join_add(join, NULL, 0, 0, &fault) == SMAP_NULL_HANDLE && smap_join_add(join, two, MAX, 0, NULL) == SMAP_TOO_LARGE);
    CHECK(smap_join_add(join, two, 0, 10, NULL) == SMAP_OK);
    CHECK(smap_join_finish(join, &out, &fault) == SMAP_OK && is_none(&fault) && made(out, BOTH));
    CHECK(smap_join_finish(join, &out, NULL) == SMAP_OK && made(out, EMPTY)); /* as a new one */
    CHECK(smap_join_add(join, two, 0, 0, NULL) == SMAP_OK);
    smap_free_join(join);
    CHECK(smap_join_new(&join, NULL) == SMAP_OK);
    smap_free_join(join);
    smap_free_map(one);
    smap_free_map(two);
}

/* Evaluates the words of a plan, separated by spaces, over B and C. */
static uint32_t evaluated(const char *plan, smap_map **out, smap_fault *fault) {
    static char copy[1000];
    smap_text words[100], texts[2] = { text_of(B), text_of(C) };
    size_t len = 0;
    for (char *word = strtok(strcpy(copy, plan), " "); word; word = strtok(NULL, " ")) words[len++] = text_of(word);
    return smap_evaluate(words, len, texts, 2, out, fault);
}

static void evaluates(const char *plan, uint32_t code, uint64_t detail) {
    smap_map *map = (smap_map *)&failed;
    smap_fault fault = junk();
    CHECK_ROW(evaluated(plan, &map, &fault) == code && fault.code == code && fault.detail == detail, __LINE__, plan);
    CHECK(has_no_place(&fault) && (map == (smap_map *)&failed) == (code != SMAP_OK));
    if (code == SMAP_OK) smap_free_map(map);
}

static void evaluating(void) {
    char deep[1000] = "";
    smap_map *map = (smap_map *)&failed;
    smap_fault fault = junk();
    smap_text words[3] = { text_of("compose"), text_of("@0"), text_of("@1") }, texts[2] = { text_of(C),
        text_of("{\"version\":3}") };
    CHECK(evaluated("compose @0 @1", &map, &fault) == SMAP_OK && is_none(&fault));
    CHECK(made(map, "{\"version\":3,\"names\":[],\"sources\":[\"a.ts\"],\"mappings\":\"AAEA\"}"));
    CHECK(evaluated("join 2 @0 0 @1 1", &map, NULL) == SMAP_OK);
    CHECK(made(map, "{\"version\":3,\"names\":[],\"sources\":[\"a.js\",\"a.ts\"],\"mappings\":\"AACA;;ACCA\"}"));
    evaluates("joinat 2 rewrite @0 0 0 join 1 @1 3 7 0", SMAP_OK, 0);
    evaluates("remap join 2 @0 0 @0 9 2 rewrite root @1 @0 sort @1", SMAP_OK, 0); /* the paths are `rewrite` and `@0` */
    evaluates("simplify join 2 @0 0 @1 9", SMAP_OK, 0);
    evaluates("simplify", SMAP_WORDS, 0);
    evaluates("join 2 @0 5 @1 0", SMAP_UNSORTED, 0);
    evaluates("", SMAP_WORDS, 0);
    evaluates("@2", SMAP_NO_TEXT, 2);
    evaluates("compose join 2 @0 0 @0 9 @1", SMAP_SEVERAL_SOURCES, 2);
    evaluates("@\xff", SMAP_NOT_UTF8, 1);
    for (int i = 0; i < 63; i++) strcat(deep, "rewrite ");
    evaluates(strcat(deep, "@0"), SMAP_OK, 0);
    memmove(deep + 8, deep, strlen(deep) + 1);
    evaluates(deep, SMAP_TOO_DEEP, 0);
    map = (smap_map *)&failed;
    CHECK(smap_evaluate(words, 3, texts, 2, &map, &fault) == SMAP_JSON_SHAPE && fault.field == SMAP_FIELD_MAPPINGS &&
          map == (smap_map *)&failed);
    CHECK(fault.place.kind == SMAP_PLACE_MEMBER && fault.place.field == SMAP_FIELD_MAPPINGS && fault.place.text == 1);
    CHECK(fault.place.section == SMAP_NOT_TOLD && smap_evaluate(words, 3, texts, 2, &map, NULL) == SMAP_JSON_SHAPE);
    texts[0] = text_of("{\"version\":3 }"); /* both fail alike: the place is in the one that the plan reads first */
    words[1] = text_of("@1");
    words[2] = text_of("@0");
    CHECK(smap_evaluate(words, 3, texts, 2, &map, &fault) == SMAP_JSON_SHAPE && fault.place.text == 1);
    texts[0] = text_of(C);
    texts[1] = text_of("{\xff");
    CHECK(smap_evaluate(&words[1], 1, texts, 2, &map, &fault) == SMAP_NOT_UTF8 && fault.detail == 1);
    CHECK(smap_evaluate(NULL, 0, NULL, 0, &map, NULL) == SMAP_WORDS && map == (smap_map *)&failed);
}

void test_making(void) {
    changing();
    remaking();
    composing();
    remapping();
    joining();
    joining_one_by_one();
    evaluating();
}

/* Maps that are built token by token. */
#include "tests.h"

static void building(void) {
    smap_builder *builder;
    smap_map *map;
    smap_fault fault = junk();
    smap_token tokens[3] = { token_of(0, 0, 0, 0, 0, NO), token_of(0, 3, 0, 9, 1, 0), token_of(0, 8, 0, 0, NO, NO) };
    uint32_t id = 77;
    char name[3] = "hi";
    CHECK(smap_builder_new(&builder, &fault) == SMAP_OK && is_none(&fault));
    CHECK(smap_builder_set_file(builder, TEXT("out.js"), &fault) == SMAP_OK && is_none(&fault));
    CHECK(smap_builder_add_source_and_content(builder, TEXT("a.ts"), TEXT("let hi;"), &id, &fault) == SMAP_OK && id == 0);
    CHECK(smap_builder_add_source_and_content(builder, TEXT("b.ts"), NULL, 0, &id, &fault) == SMAP_OK && id == 1);
    CHECK(smap_builder_add_source_and_content(builder, TEXT("a.ts"), TEXT("x"), &id, &fault) == SMAP_OK && id == 0);
    CHECK(smap_builder_add_source(builder, TEXT("c.ts"), &id, &fault) == SMAP_OK && id == 2 && is_none(&fault));
    CHECK(smap_builder_add_source(builder, TEXT("a.ts"), &id, NULL) == SMAP_OK && id == 0);
    CHECK(smap_builder_add_name(builder, TEXT(name), &id, &fault) == SMAP_OK && id == 0 && is_none(&fault));
    memset(name, '#', 2); /* the builder has a copy */
    CHECK(smap_builder_add_name(builder, TEXT("gr\xc3\xb6\xc3\x9f" "e"), &id, &fault) == SMAP_OK && id == 1);
    CHECK(smap_builder_add_name(builder, TEXT("hi"), &id, NULL) == SMAP_OK && id == 0);
    CHECK(smap_builder_add_tokens(builder, tokens, 1, &fault) == SMAP_OK && is_none(&fault));
    CHECK(smap_builder_add_tokens(builder, &tokens[1], 2, NULL) == SMAP_OK &&
          smap_builder_add_tokens(builder, NULL, 0, NULL) == SMAP_OK);
    id = 77;
    CHECK(smap_builder_add_name(builder, TEXT("ab\xff"), &id, &fault) == SMAP_NOT_UTF8 && is_fault(&fault, SMAP_NOT_UTF8, 2));
    CHECK(smap_builder_add_source_and_content(builder, TEXT("\xff"), TEXT("x\xff"), &id, &fault) == SMAP_NOT_UTF8 &&
          fault.detail == 0);
    CHECK(smap_builder_add_source_and_content(builder, TEXT("c.ts"), TEXT("x\xff"), &id, &fault) == SMAP_NOT_UTF8 &&
          fault.detail == 1);
    CHECK(smap_builder_add_source(builder, TEXT("abc\xff"), &id, &fault) == SMAP_NOT_UTF8 && is_fault(&fault, SMAP_NOT_UTF8, 3) &&
          id == 77);
    CHECK(smap_builder_set_file(builder, TEXT("\xff"), &fault) == SMAP_NOT_UTF8 && is_fault(&fault, SMAP_NOT_UTF8, 0));
    CHECK(smap_builder_finish(builder, &map, &fault) == SMAP_OK && is_none(&fault));
    CHECK(made(map, "{\"version\":3,\"file\":\"out.js\",\"names\":[\"hi\",\"gr\xc3\xb6\xc3\x9f" "e\"],\"sources\":[\"a.ts\",\"b.ts\",\"c.ts\"],"
                    "\"sourcesContent\":[\"let hi;\",\"\",null],\"mappings\":\"AAAA,GCASA,K\"}"));
    CHECK(smap_builder_finish(builder, &map, NULL) == SMAP_OK && made(map, EMPTY)); /* as a new one */
    smap_free_builder(builder);
}

/* Ids that were not added, null outputs, and lines that go back. */
static void building_more(void) {
    smap_builder *builder;
    smap_map *map = NULL;
    smap_original p;
    uint32_t is_so;
    smap_token tokens[2] = { token_of(1, 0, 0, 0, 7, 7), token_of(1, 4, 0, 0, 0, 7) };
    CHECK(smap_builder_new(&builder, NULL) == SMAP_OK && smap_builder_add_name(builder, NULL, 0, NULL, NULL) == SMAP_OK);
    CHECK(smap_builder_add_source(builder, NULL, 0, NULL, NULL) == SMAP_OK &&
          smap_builder_set_file(builder, NULL, 0, NULL) == SMAP_OK);
    CHECK(smap_builder_add_source_and_content(builder, TEXT("b"), TEXT("B"), NULL, NULL) == SMAP_OK);
    CHECK(smap_builder_add_tokens(builder, LIST(tokens), NULL) == SMAP_OK && smap_builder_finish(builder, &map, NULL) == SMAP_OK);
    CHECK(smap_is_sorted(map, &is_so) == SMAP_OK && is_so == 1 && smap_is_sound(map, &is_so) == SMAP_OK && is_so == 0);
    CHECK(smap_trace(map, 1, 0, SMAP_BEFORE, &p, NULL) == SMAP_OK && p.kind == SMAP_UNMAPPED && is(&p.source, "") &&
          is(&p.name, ""));
    CHECK(smap_trace(map, 1, 4, SMAP_BEFORE, &p, NULL) == SMAP_OK && p.kind == SMAP_MAPPED && is(&p.source, "") && is(&p.name, ""));
    CHECK(p.token.source_id == 0 && p.token.name_id == 7);
    smap_free_map(map);
    tokens[1].dst_line = 0;
    CHECK(smap_builder_add_tokens(builder, LIST(tokens), NULL) == SMAP_OK && smap_builder_finish(builder, &map, NULL) == SMAP_OK);
    CHECK(smap_is_sorted(map, &is_so) == SMAP_OK && is_so == 0 && smap_trace(map, 0, 0, SMAP_BEFORE, &p, NULL) == SMAP_LINE_ORDER);
    smap_free_map(map);
    smap_free_builder(builder);
}

void test_building(void) {
    building();
    building_more();
}

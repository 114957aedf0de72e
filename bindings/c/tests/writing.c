/* Maps that are written, and texts about them. */
#include "tests.h"

static void writing(void) {
    smap_map *map = read_map(A), *read;
    smap_string *string, *url;
    smap_fault fault = junk();
    smap_text text;
    CHECK(smap_to_json_string(map, &string, &fault) == SMAP_OK && is_none(&fault) && is_string(string, A));
    CHECK(smap_to_data_url(map, &url, &fault) == SMAP_OK && is_none(&fault) && smap_get_text(url, &text) == SMAP_OK);
    CHECK(text.len > 50 && memcmp(text.at, "data:application/json;charset=utf-8;base64,", 43) == 0);
    CHECK(smap_decode_data_url(text.at, text.len, &string, &fault) == SMAP_OK && is_none(&fault) && is_string(string, A));
    smap_free_string(url);
    CHECK(smap_to_data_url(map, &url, NULL) == SMAP_OK && smap_get_mappings(map, &string, &fault) == SMAP_OK && is_none(&fault));
    smap_free_string(url);
    CHECK(is_string(string, "AAAA,GAASA,K;CCCTC") && smap_get_mappings(map, &string, NULL) == SMAP_OK);
    smap_free_string(string);
    CHECK(smap_decode_mappings(TEXT("AAAA,GAASA,K;CCCTC"), 2, 2, &read, &fault) == SMAP_OK && is_none(&fault));
    smap_token tokens[4];
    smap_counts counts;
    size_t count;
    CHECK(smap_get_counts(read, &counts) == SMAP_OK && counts.tokens == 4 && counts.names == 0 && counts.sources == 0);
    CHECK(smap_get_tokens(read, LIST(tokens), &count) == SMAP_OK && tokens[3].source_id == 1 && tokens[3].name_id == 1);
    CHECK(smap_encode_mappings(LIST(tokens), &string, &fault) == SMAP_OK && is_none(&fault) &&
          is_string(string, "AAAA,GAASA,K;CCCTC"));
    CHECK(smap_encode_mappings(NULL, 0, &string, NULL) == SMAP_OK && is_string(string, ""));
    string = (smap_string *)&failed;
    tokens[3].dst_line = 0, tokens[2].dst_line = 1;
    CHECK(smap_encode_mappings(LIST(tokens), &string, &fault) == SMAP_LINE_ORDER && is_fault(&fault, SMAP_LINE_ORDER, 3));
    CHECK(smap_encode_mappings(LIST(tokens), &string, NULL) == SMAP_LINE_ORDER && string == (smap_string *)&failed);
    smap_free_map(read);
    smap_free_map(map);
}

/* A map of 122 bytes whose text has 4294967295 lines; and tokens that go back from there, which is found before the lines are written. */
#define DEEP "{\"version\":3,\"sections\":[{\"offset\":{\"line\":4294967295,\"column\":0},\"map\":" \
    "{\"version\":3,\"sources\":[\"a\"],\"mappings\":\"AAAA\"}}]}"
static const smap_token BACK[3] = { { 0, 0, 0, 0, 0, NO }, { 50000000, 0, 0, 0, 0, NO }, { 5, 0, 0, 0, 0, NO } };

/* A text is written if it has as many bytes as the limit, and not if it has one more. The lengths: 4 bytes of a URL for 3 of the text,
 * after 43. */
static void writing_within(void) {
    smap_map *map = read_map(A);
    smap_string *string = (smap_string *)&failed;
    smap_fault fault = junk();
    smap_text text;
    size_t length = strlen(A), url = 43 + (strlen(A) + 2) / 3 * 4;
    smap_token tokens[4];
    size_t count;
    CHECK(smap_get_tokens(map, LIST(tokens), &count) == SMAP_OK && count == 4);
    CHECK(smap_to_json_string_within(map, length - 1, &string, &fault) == SMAP_TOO_LARGE && is_fault(&fault, SMAP_TOO_LARGE, 0));
    fault = junk();
    CHECK(smap_to_data_url_within(map, url - 1, &string, &fault) == SMAP_TOO_LARGE && is_fault(&fault, SMAP_TOO_LARGE, 0));
    fault = junk();
    CHECK(smap_get_mappings_within(map, 17, &string, &fault) == SMAP_TOO_LARGE && is_fault(&fault, SMAP_TOO_LARGE, 0));
    fault = junk();
    CHECK(smap_encode_mappings_within(LIST(tokens), 17, &string, &fault) == SMAP_TOO_LARGE && is_fault(&fault, SMAP_TOO_LARGE, 0));
    CHECK(smap_to_json_string_within(map, 0, &string, NULL) == SMAP_TOO_LARGE && string == (smap_string *)&failed);
    CHECK(smap_to_json_string_within(map, length, &string, &fault) == SMAP_OK && is_none(&fault) && is_string(string, A));
    CHECK(smap_to_data_url_within(map, url, &string, &fault) == SMAP_OK && is_none(&fault) && smap_get_text(string, &text) == SMAP_OK);
    CHECK(text.len == url && memcmp(text.at, "data:application/json;charset=utf-8;base64,", 43) == 0);
    smap_free_string(string);
    CHECK(smap_get_mappings_within(map, 18, &string, &fault) == SMAP_OK && is_none(&fault) && is_string(string, "AAAA,GAASA,K;CCCTC"));
    CHECK(smap_encode_mappings_within(LIST(tokens), 18, &string, &fault) == SMAP_OK && is_none(&fault) &&
          is_string(string, "AAAA,GAASA,K;CCCTC"));
    CHECK(smap_encode_mappings_within(NULL, 0, 0, &string, NULL) == SMAP_OK && is_string(string, ""));
    CHECK(smap_to_json_string_within(map, SIZE_MAX, &string, NULL) == SMAP_OK && is_string(string, A));
    smap_free_map(map);
}

static void many_lines(void) {
    smap_map *map = read_map(DEEP), *back;
    smap_string *string = (smap_string *)&failed;
    smap_fault fault = junk();
    smap_text source = text_of("a");
    CHECK(smap_from_tokens(LIST(BACK), NULL, 0, &source, 1, NULL, 0, NULL, 0, &back, NULL) == SMAP_OK);
    left = 0, refuses_on = 1;
    CHECK(smap_to_json_string_within(map, 100000000, &string, &fault) == SMAP_TOO_LARGE && is_fault(&fault, SMAP_TOO_LARGE, 0));
    CHECK(smap_to_json_string_within(map, MAX - 1, &string, NULL) == SMAP_TOO_LARGE);
    CHECK(smap_to_data_url_within(map, MAX - 1, &string, NULL) == SMAP_TOO_LARGE);
    CHECK(smap_get_mappings_within(map, MAX - 1, &string, NULL) == SMAP_TOO_LARGE);
    CHECK(smap_to_json_string_within(back, 0, &string, &fault) == SMAP_LINE_ORDER && is_fault(&fault, SMAP_LINE_ORDER, 2));
    CHECK(smap_get_mappings_within(back, 0, &string, &fault) == SMAP_LINE_ORDER && is_fault(&fault, SMAP_LINE_ORDER, 2));
    CHECK(smap_to_data_url_within(back, 0, &string, &fault) == SMAP_LINE_ORDER && is_fault(&fault, SMAP_LINE_ORDER, 2));
    left = -1, refuses_on = 0;
    CHECK(smap_encode_mappings_within(BACK, 2, 49999999, &string, &fault) == SMAP_TOO_LARGE && is_fault(&fault, SMAP_TOO_LARGE, 0));
    CHECK(smap_encode_mappings_within(LIST(BACK), 0, &string, &fault) == SMAP_LINE_ORDER && is_fault(&fault, SMAP_LINE_ORDER, 2));
    CHECK(string == (smap_string *)&failed);
    smap_free_map(back);
    smap_free_map(map);
}

static void decoding(void) {
    smap_map *map = (smap_map *)&failed;
    smap_fault fault = junk();
    char out[100];
    CHECK(smap_decode_mappings(TEXT("AAAA;AACA,AA"), 0, 1, &map, &fault) == SMAP_BAD_SEGMENT_SIZE && fault.detail == 2);
    CHECK(fault.place.kind == SMAP_PLACE_SEGMENT && fault.place.line == 1 && fault.place.column == 1 && fault.place.byte == 10);
    CHECK(smap_place_message(&fault, out, sizeof out) == 27 && memcmp(out, "line 1, segment 1 (byte 10)", 27) == 0);
    CHECK(smap_decode_mappings(TEXT("AAAAC"), 1, 1, &map, &fault) == SMAP_BAD_NAME_REFERENCE && fault.detail == 1);
    CHECK(smap_decode_mappings(TEXT("AAAA"), 0, 0, &map, &fault) == SMAP_BAD_SOURCE_REFERENCE && fault.detail == 0);
    CHECK(smap_decode_mappings(TEXT("A;g"), 0, 0, &map, &fault) == SMAP_VLQ_LEFTOVER && fault.place.byte == 2);
    CHECK(smap_decode_mappings(TEXT("A\xff"), 0, 0, &map, &fault) == SMAP_NOT_UTF8 && is_fault(&fault, SMAP_NOT_UTF8, 1));
    CHECK(smap_decode_mappings(TEXT("A;g"), 0, 0, &map, NULL) == SMAP_VLQ_LEFTOVER && map == (smap_map *)&failed);
    CHECK(smap_decode_mappings(TEXT("AAAAC"), 2, 1, &map, NULL) == SMAP_OK);
    smap_free_map(map);
    CHECK(smap_decode_mappings(NULL, 0, 0, 0, &map, NULL) == SMAP_OK && made(map, EMPTY));
}

static void showing(void) {
    smap_text sources[1] = { text_of("a.js") }, contents[1] = { text_of("ab\ncd") };
    smap_token tokens[2] = { token_of(0, 0, 0, 0, 0, NO), token_of(1, 1, 1, 0, 0, NO) };
    smap_map *map, *none = read_map(EMPTY);
    smap_string *string;
    smap_fault fault = junk();
    CHECK(smap_from_tokens(LIST(tokens), NULL, 0, LIST(sources), LIST(contents), NULL, 0, &map, NULL) == SMAP_OK);
    CHECK(smap_visualize(map, TEXT("ab\ncd"), &string, &fault) == SMAP_OK && is_none(&fault));
    CHECK(is_string(string, "- a.js\n(0:0) \"ab\\n\" --> (0:0) \"ab\\n\"\n(1:0) \"cd\" --> (1:1) \"d\"\n"));
    CHECK(smap_visualize(none, NULL, 0, &string, NULL) == SMAP_OK && is_string(string, "[no source contents]\n"));
    CHECK(smap_visualizer_url(none, TEXT("a"), &string, &fault) == SMAP_OK && is_none(&fault));
    CHECK(is_string(string, "https://evanw.github.io/source-map-visualization/"
                            "#MQBhNTEAeyJ2ZXJzaW9uIjozLCJuYW1lcyI6W10sInNvdXJjZXMiOltdLCJtYXBwaW5ncyI6IiJ9"));
    CHECK(smap_visualizer_url(none, NULL, 0, &string, NULL) == SMAP_OK);
    smap_free_string(string);
    string = (smap_string *)&failed;
    CHECK(smap_visualize(map, TEXT("a\xff"), &string, &fault) == SMAP_NOT_UTF8 && is_fault(&fault, SMAP_NOT_UTF8, 1));
    CHECK(smap_visualizer_url(map, TEXT("\xff"), &string, &fault) == SMAP_NOT_UTF8 && is_fault(&fault, SMAP_NOT_UTF8, 0));
    CHECK(smap_visualize(map, TEXT("\xff"), &string, NULL) == SMAP_NOT_UTF8 && string == (smap_string *)&failed);
    smap_free_map(map);
    smap_free_map(none);
}

static void urls(void) {
    const char *code = "x /*# sourceMappingURL=a.map */", *line = "x\n//# sourceMappingURL=a.map\n";
    smap_string *string = (smap_string *)&failed;
    smap_fault fault = junk();
    smap_text text = text_of("kept");
    CHECK(SMAP_JAVASCRIPT == 0 && SMAP_CSS == 1);
    CHECK(smap_source_mapping_url(TEXT(code), SMAP_CSS, &text, &fault) == SMAP_OK && is_none(&fault) && text.at == code + 23 &&
          text.len == 5);
    CHECK(smap_source_mapping_url(TEXT(line), SMAP_JAVASCRIPT, &text, NULL) == SMAP_OK && text.at == line + 23 && text.len == 5);
    text = text_of("kept");
    CHECK(smap_source_mapping_url(TEXT(line), SMAP_CSS, &text, &fault) == SMAP_NO_ENTRY && is_fault(&fault, SMAP_NO_ENTRY, 0));
    CHECK(smap_source_mapping_url(TEXT("\xff"), 2, &text, &fault) == SMAP_NOT_UTF8 && is_fault(&fault, SMAP_NOT_UTF8, 0));
    CHECK(smap_source_mapping_url(TEXT(line), 2, &text, &fault) == SMAP_BAD_OPTION && is_fault(&fault, SMAP_BAD_OPTION, 0));
    CHECK(smap_source_mapping_url(NULL, 0, SMAP_CSS, &text, NULL) == SMAP_NO_ENTRY && is(&text, "kept"));
    CHECK(smap_decode_data_url(TEXT("a.js.map"), &string, &fault) == SMAP_NO_ENTRY && is_fault(&fault, SMAP_NO_ENTRY, 0));
    CHECK(smap_decode_data_url(NULL, 0, &string, NULL) == SMAP_NO_ENTRY);
    CHECK(smap_decode_data_url(TEXT("data:application/json;base64,e3*0"), &string, &fault) == SMAP_BAD_BASE64 &&
          is_fault(&fault, SMAP_BAD_BASE64, 2));
    CHECK(smap_decode_data_url(TEXT("data:application/json,ab%c3"), &string, &fault) == SMAP_BAD_DATA_UTF8 &&
          is_fault(&fault, SMAP_BAD_DATA_UTF8, 2));
    CHECK(smap_decode_data_url(TEXT("d\xff"), &string, &fault) == SMAP_NOT_UTF8 && is_fault(&fault, SMAP_NOT_UTF8, 1));
    CHECK(string == (smap_string *)&failed);
    CHECK(smap_decode_data_url(TEXT("data:application/json,%7B%22a%22:1%7d"), &string, NULL) == SMAP_OK &&
          is_string(string, "{\"a\":1}"));
}

void test_writing(void) {
    writing();
    writing_within();
    many_lines();
    decoding();
    showing();
    urls();
}

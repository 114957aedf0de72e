/* Null in the place of a handle. */
#include "tests.h"

#define NULL_HANDLE(call) CHECK((call) == SMAP_NULL_HANDLE)

static void null_scopes(void) {
    smap_scopes_counts held;
    smap_scope scope;
    smap_range range;
    smap_frame frame;
    smap_chain_entry entry = { 77, 77 };
    uint32_t n = 77;
    size_t count = 77;
    held.scopes = 77, scope.source = 77, range.definition = 77, frame.name = 77;
    NULL_HANDLE(smap_scopes_get_counts(NULL, &held));
    NULL_HANDLE(smap_get_scope(NULL, 0, &scope));
    NULL_HANDLE(smap_get_range(NULL, 0, &range));
    NULL_HANDLE(smap_scope_at(NULL, 0, 0, 0, &n));
    NULL_HANDLE(smap_function_at(NULL, 0, 0, 0, &n));
    NULL_HANDLE(smap_range_at(NULL, 0, 0, &n));
    NULL_HANDLE(smap_frames_at(NULL, 0, 0, &frame, 1, &count, &n));
    NULL_HANDLE(smap_frames_at(NULL, 0, 0, NULL, 0, &count, NULL));
    NULL_HANDLE(smap_get_variables(NULL, 0, &n, 1, &count));
    NULL_HANDLE(smap_get_variables(NULL, 0, NULL, 0, &count));
    NULL_HANDLE(smap_value_at(NULL, 0, 0, 0, 0, &n));
    NULL_HANDLE(smap_scope_chain_at(NULL, 0, 0, &entry, 1, &count));
    NULL_HANDLE(smap_scope_chain(NULL, 0, 0, 0, &entry, 1, &count));
    CHECK(held.scopes == 77 && scope.source == 77 && range.definition == 77 && frame.name == 77);
    CHECK(n == 77 && count == 77 && entry.scope == 77 && entry.range == 77);
}

static void null_readers(void) {
    smap_counts counts;
    smap_text text = text_of("kept");
    smap_token token;
    smap_mend mend;
    uint32_t n = 77;
    size_t count = 77;
    counts.tokens = 77;
    token.dst_line = 77;
    NULL_HANDLE(smap_get_counts(NULL, &counts));
    NULL_HANDLE(smap_is_sorted(NULL, &n));
    NULL_HANDLE(smap_is_sound(NULL, &n));
    NULL_HANDLE(smap_get_name(NULL, 0, &text));
    NULL_HANDLE(smap_get_source(NULL, 0, &text));
    NULL_HANDLE(smap_get_source_content(NULL, 0, &text));
    NULL_HANDLE(smap_get_file(NULL, &text));
    NULL_HANDLE(smap_get_source_root(NULL, &text));
    NULL_HANDLE(smap_get_debug_id(NULL, &text));
    NULL_HANDLE(smap_get_token(NULL, 0, &token));
    NULL_HANDLE(smap_get_tokens(NULL, &token, 1, &count));
    NULL_HANDLE(smap_get_names(NULL, &text, 1, &count));
    NULL_HANDLE(smap_get_sources(NULL, &text, 1, &count));
    NULL_HANDLE(smap_get_source_contents(NULL, &text, 1, &count));
    NULL_HANDLE(smap_get_ignore_list(NULL, &n, 1, &count));
    NULL_HANDLE(smap_get_mends(NULL, &mend, 1, &count));
    NULL_HANDLE(smap_generated(NULL, 0, 0, 0, 9, &n, &token));
    NULL_HANDLE(smap_all_generated(NULL, 0, 0, 0, 9, &n, 1, &count));
    NULL_HANDLE(smap_get_text(NULL, &text));
    NULL_HANDLE(smap_compiled_get_token(NULL, 0, &token));
    NULL_HANDLE(smap_compiled_get_text(NULL, 9, 0, &text));
    NULL_HANDLE(smap_compiled_get_stamp(NULL, &text));
    NULL_HANDLE(smap_compiled_is_ignored(NULL, 0, &n));
    CHECK(counts.tokens == 77 && n == 77 && count == 77 && token.dst_line == 77 && is(&text, "kept"));
    smap_free_map(NULL);
    smap_free_mends(NULL);
    smap_free_join(NULL);
    smap_free_builder(NULL);
    smap_free_string(NULL);
    smap_free_compiled(NULL);
    smap_free_scopes(NULL);
    smap_free_file(NULL);
}

/* The same for calls with a fault. */
static void null_handles(void) {
    smap_map *map = read_map(B), *out = (smap_map *)&failed;
    smap_string *string = (smap_string *)&failed;
    smap_fault fault = junk();
    smap_original p;
    smap_position one = { 0, 0 };
    smap_piece piece;
    smap_token token = token_of(0, 0, 0, 0, 0, 0);
    smap_text bad = text_of("\xff");
    smap_compiled_counts counts;
    uint32_t n = 77;
    size_t count = 77;
    p.kind = 77, counts.tokens = 77;
#define NULL_FAULT(call) CHECK((call) == SMAP_NULL_HANDLE && is_fault(&fault, SMAP_NULL_HANDLE, 0)), fault = junk()
    NULL_FAULT(smap_clone(NULL, &out, &fault));
    NULL_FAULT(smap_trace(NULL, 0, 0, 9, &p, &fault));
    NULL_FAULT(smap_trace_all(NULL, &one, 1, 9, &p, 0, &fault));
    NULL_FAULT(smap_find_all(NULL, &one, 1, 9, &n, 0, &fault));
    NULL_HANDLE(smap_pieces(NULL, one, one, &piece, 1, &count));
    NULL_HANDLE(smap_first_difference(NULL, map, &one));
    NULL_HANDLE(smap_first_difference(map, NULL, &one));
    NULL_HANDLE(smap_compiled_get_counts(NULL, &counts));
    NULL_HANDLE(smap_compiled_trace(NULL, 0, 0, 9, &p));
    NULL_HANDLE(smap_compiled_trace_all(NULL, &one, 1, 9, &p, 0));
    NULL_HANDLE(smap_compiled_find_all(NULL, &one, 1, 9, &n, 0));
    NULL_FAULT(smap_compile(NULL, 0, NULL, &string, &fault));
    NULL_FAULT(smap_decompile(NULL, &out, &fault));
    NULL_FAULT(smap_index_sources(NULL, &fault));
    NULL_FAULT(smap_set_file(NULL, TEXT("\xff"), &fault));
    NULL_FAULT(smap_set_source_root(NULL, TEXT("\xff"), &fault));
    NULL_FAULT(smap_set_debug_id(NULL, TEXT("\xff"), &fault));
    NULL_FAULT(smap_set_ignore_list(NULL, &n, 1, &fault));
    NULL_FAULT(smap_set_sources(NULL, &bad, 1, &fault));
    NULL_FAULT(smap_set_source_contents(NULL, &bad, 1, &fault));
    NULL_FAULT(smap_apply_source_root(NULL, &fault));
    NULL_FAULT(smap_sort(NULL, &fault));
    NULL_FAULT(smap_simplify(NULL, &fault));
    NULL_FAULT(smap_compose(NULL, map, &out, &fault));
    NULL_FAULT(smap_compose(map, NULL, &out, &fault));
    NULL_FAULT(smap_remap(NULL, &bad, 1, NULL, 0, &out, &fault));
    NULL_FAULT(smap_join_add(NULL, map, 0, 0, &fault));
    NULL_FAULT(smap_join_finish(NULL, &out, &fault));
    NULL_FAULT(smap_builder_add_name(NULL, TEXT("\xff"), &n, &fault));
    NULL_FAULT(smap_builder_add_source_and_content(NULL, TEXT("\xff"), TEXT("\xff"), &n, &fault));
    NULL_FAULT(smap_builder_add_source(NULL, TEXT("\xff"), &n, &fault));
    NULL_FAULT(smap_builder_add_tokens(NULL, &token, 1, &fault));
    NULL_FAULT(smap_builder_set_file(NULL, TEXT("\xff"), &fault));
    NULL_FAULT(smap_builder_finish(NULL, &out, &fault));
    NULL_FAULT(smap_to_json_string(NULL, &string, &fault));
    NULL_FAULT(smap_to_data_url(NULL, &string, &fault));
    NULL_FAULT(smap_get_mappings(NULL, &string, &fault));
    NULL_FAULT(smap_to_json_string_within(NULL, 9, &string, &fault));
    NULL_FAULT(smap_to_data_url_within(NULL, 9, &string, &fault));
    NULL_FAULT(smap_get_mappings_within(NULL, 9, &string, &fault));
    NULL_FAULT(smap_visualize(NULL, TEXT("\xff"), &string, &fault));
    NULL_FAULT(smap_visualizer_url(NULL, TEXT("\xff"), &string, &fault));
    NULL_HANDLE(smap_to_json_string(NULL, &string, NULL));
    NULL_HANDLE(smap_sort(NULL, NULL));
    CHECK(out == (smap_map *)&failed && string == (smap_string *)&failed && n == 77 && count == 77 && p.kind == 77);
    CHECK(counts.tokens == 77);
    smap_free_map(map);
}

void test_null_handles(void) {
    null_scopes();
    null_readers();
    null_handles();
}

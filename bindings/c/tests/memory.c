/* Each request for memory refused in turn. */
#include "tests.h"

/* What run_all makes. */
typedef struct made_all {
    smap_map *maps[14];
    smap_string *strings[12];
    smap_compiled *compiled;
    smap_scopes *scopes[2];
    smap_builder *builder;
    smap_join *join;
    smap_mends *mends;
} made_all;

/* Leaves on the stack, for what the next call does not initialise, a value that no call can use. */
static void soil(void) {
    volatile unsigned char room[4096];
    for (size_t i = 0; i < sizeof room; i++) room[i] = 0x77;
}

/* Makes a call, whose fault `f` nobody initialised, and returns its code unless that is SMAP_OK. */
#define MAKES(call) do { \
        *f = junk(); \
        soil(); \
        uint32_t code_ = (call); \
        if (code_ != SMAP_OK) return code_; \
        CHECK(is_none(f)); \
    } while (0)

/* More texts and maps than the layer has room for without a request for memory. */
#define MANY 20

/* One call of each kind that makes something of lists, in a row; the first code that is not SMAP_OK. */
static uint32_t make_of_lists(made_all *m, smap_fault *f) {
    static const char *const LINES_OF[MANY] = { "0",  "2",  "4",  "6",  "8",  "10", "12", "14", "16", "18",
                                                "20", "22", "24", "26", "28", "30", "32", "34", "36", "38" };
    smap_text texts[MANY], paths[MANY], words[2 + 2 * MANY] = { text_of("join"), text_of("20") };
    smap_position positions[MANY];
    const smap_map *maps[MANY];
    for (uint32_t i = 0; i < MANY; i++) {
        texts[i] = text_of(A), paths[i] = text_of("a.ts"), positions[i] = at(2 * i, 0), maps[i] = m->maps[i % 2];
        words[2 + 2 * i] = text_of(i % 2 ? "@1" : "@19"), words[3 + 2 * i] = text_of(LINES_OF[i]);
    }
    MAKES(smap_from_tokens(NULL, 0, LIST(texts), LIST(texts), LIST(texts), NULL, 0, &m->maps[6], f));
    MAKES(smap_evaluate(LIST(words), LIST(texts), &m->maps[7], f));
    MAKES(smap_join_all(LIST(maps), LIST(positions), &m->maps[9], f));
    MAKES(smap_remap(m->maps[2], LIST(paths), LIST(maps), &m->maps[10], f));
    return SMAP_OK;
}

/* One call of each kind that writes. */
static uint32_t write_all(made_all *m, smap_fault *f) {
    const smap_map *map = m->maps[2];
    MAKES(smap_to_json_string(map, &m->strings[0], f));
    MAKES(smap_to_data_url(map, &m->strings[1], f));
    MAKES(smap_get_mappings(map, &m->strings[2], f));
    MAKES(smap_encode_mappings(REVERSED, 6, &m->strings[3], f));
    MAKES(smap_visualize(map, TEXT("let hi;"), &m->strings[4], f));
    MAKES(smap_visualizer_url(map, TEXT("x"), &m->strings[5], f));
    MAKES(smap_decode_data_url(TEXT("data:application/json,{}"), &m->strings[6], f));
    MAKES(smap_to_json_string_within(map, 999, &m->strings[7], f));
    MAKES(smap_to_data_url_within(map, 999, &m->strings[8], f));
    MAKES(smap_get_mappings_within(map, 999, &m->strings[9], f));
    MAKES(smap_encode_mappings_within(REVERSED, 6, 999, &m->strings[10], f));
    return SMAP_OK;
}

/* One call of each kind that makes a compiled map, opens it or takes it apart. */
static uint32_t compile_all(made_all *m, smap_fault *f) {
    smap_text bytes;
    MAKES(smap_compile(m->maps[2], 0, NULL, &m->strings[11], f));
    CHECK(smap_get_text(m->strings[11], &bytes) == SMAP_OK);
    MAKES(smap_open_compiled(bytes.at, bytes.len, &m->compiled, f));
    MAKES(smap_decompile(m->compiled, &m->maps[12], f));
    return SMAP_OK;
}

/* A function into which another was inlined. */
#define SCOPES "BFAAA,DAC,BFCAC,CCA,CFA,EGAA,GCB,HBAFA,ECKC,IAFC,FK,FU"

/* Each call that reads scopes. */
static uint32_t scope_all(made_all *m, smap_fault *f) {
    MAKES(smap_read_scopes(TEXT("{\"names\":[\"f\",\"g\"],\"scopes\":\"" SCOPES "\"}"), &m->scopes[0], f));
    MAKES(smap_decode_scopes(TEXT(SCOPES), 2, &m->scopes[1], f));
    return SMAP_OK;
}

/* One call of each kind that makes something, in a row; the first code that is not SMAP_OK. */
static uint32_t make_all(made_all *m, smap_fault *f) {
    MAKES(smap_from_json_string(TEXT(B), &m->maps[0], f));
    MAKES(smap_from_json_string(TEXT(C), &m->maps[1], f));
    MAKES(smap_from_json_string(TEXT(A), &m->maps[2], f));
    MAKES(smap_compose(m->maps[0], m->maps[1], &m->maps[3], f));
    MAKES(smap_read_found(TEXT(MARKED), &m->maps[4], &m->mends, f));
    MAKES(smap_clone(m->maps[2], &m->maps[5], f));
    MAKES(smap_decode_mappings(TEXT("AAAA"), 0, 1, &m->maps[8], f));
    uint32_t code = make_of_lists(m, f);
    if (!code) code = write_all(m, f);
    if (!code) code = scope_all(m, f);
    return code ? code : compile_all(m, f);
}

/* One call of each kind that builds or joins. */
static uint32_t build_all(made_all *m, smap_fault *f) {
    uint32_t id;
    MAKES(smap_join_new(&m->join, f));
    MAKES(smap_join_add(m->join, m->maps[5], 0, 0, f));
    MAKES(smap_join_add(m->join, m->maps[5], 9, 0, f));
    MAKES(smap_builder_new(&m->builder, f));
    MAKES(smap_builder_set_file(m->builder, TEXT("f"), f));
    MAKES(smap_builder_add_name(m->builder, TEXT("n"), &id, f));
    MAKES(smap_builder_add_source_and_content(m->builder, TEXT("a"), TEXT("A"), &id, f));
    MAKES(smap_builder_add_source(m->builder, TEXT("b"), &id, f));
    MAKES(smap_builder_add_tokens(m->builder, REVERSED, 6, f));
    MAKES(smap_builder_finish(m->builder, &m->maps[11], f));
    smap_free_map(m->maps[11]);
    m->maps[11] = NULL;
    MAKES(smap_join_finish(m->join, &m->maps[11], f));
    return SMAP_OK;
}

/* One call of each kind that changes something. */
static uint32_t change_all(made_all *m, smap_fault *f) {
    smap_map *map = m->maps[5];
    smap_text texts[MANY];
    uint32_t id = 0;
    for (int i = 0; i < MANY; i++) texts[i] = text_of("x");
    MAKES(smap_set_file(map, TEXT("f"), f));
    MAKES(smap_set_source_root(map, TEXT("r"), f));
    MAKES(smap_set_debug_id(map, TEXT("d"), f));
    MAKES(smap_set_ignore_list(map, &id, 1, f));
    MAKES(smap_set_sources(map, LIST(texts), f));
    MAKES(smap_set_source_contents(map, LIST(texts), f));
    MAKES(smap_apply_source_root(map, f));
    MAKES(smap_sort(map, f));
    MAKES(smap_index_sources(map, f));
    MAKES(smap_simplify(map, f));
    MAKES(smap_share_map(map, f));
    MAKES(smap_retain_map(map, &m->maps[13], f));
    return build_all(m, f);
}

/* All of these, and messages, with the request number `n` refused; the first code that is not SMAP_OK. A message that is not
 * there counts as SMAP_OUT_OF_MEMORY. */
static uint32_t run_all(long n) {
    made_all m;
    smap_fault fault = junk();
    smap_mend mend = { SMAP_MEND_CUT, 0, 2 };
    memset(&m, 0, sizeof m);
    smap_fault bad = placed(SMAP_PLACE_SEGMENT, 0, 1, 2, 0, 3, 12, 0);
    smap_fault wrong = placed(SMAP_PLACE_SEGMENT, 0, SMAP_NOT_TOLD, SMAP_NOT_TOLD, 0, 0, 0, 0);
    left = n;
    uint32_t code = make_all(&m, &fault);
    if (!code) code = change_all(&m, &fault);
    if (!code && !(smap_message(&bad, NULL, 0) && smap_place_message(&bad, NULL, 0) && smap_mend_message(&mend, NULL, 0) &&
                    smap_reason_message(TEXT(OF_A("\"mappings\":\"D\"")), &wrong, NULL, 0)))
        code = SMAP_OUT_OF_MEMORY, fault = fault_of(code, 0, 0);
    left = -1;
    CHECK(code == SMAP_OK || is_fault(&fault, SMAP_OUT_OF_MEMORY, 0));
    for (size_t i = 0; i < LEN(m.maps); i++) smap_free_map(m.maps[i]);
    smap_free_compiled(m.compiled);
    for (size_t i = 0; i < LEN(m.scopes); i++) smap_free_scopes(m.scopes[i]);
    for (size_t i = 0; i < LEN(m.strings); i++) smap_free_string(m.strings[i]);
    smap_free_builder(m.builder);
    smap_free_join(m.join);
    smap_free_mends(m.mends);
    CHECK(kept == 0);
    return code;
}

/* Each request is refused alone, and then each with all that follow it. */
static void without_memory(void) {
    for (refuses_on = 0; refuses_on < 2; refuses_on++) {
        long n = 0;
        uint32_t code;
        while ((code = run_all(n)) == SMAP_OUT_OF_MEMORY && n < 10000) n++;
        CHECK(code == SMAP_OK && n > 200);
        printf("%ld requests for memory were refused in turn%s\n", n, refuses_on ? ", with all after them" : "");
    }
    refuses_on = 0;
}

/* The fault of a text is told with its place, or the call fails for want of memory, whichever of its requests is refused. */
static void places_without_memory(void) {
    smap_text words[3] = { text_of("compose"), text_of("@0"), text_of("@1") }, texts[2] = { text_of(C),
        text_of("{\"version\":3}") };
    for (int of_a_plan = 0; of_a_plan < 2; of_a_plan++) {
        smap_map *map = (smap_map *)&failed;
        smap_fault fault = junk();
        uint32_t code = SMAP_OUT_OF_MEMORY;
        long n = 0;
        for (; code == SMAP_OUT_OF_MEMORY && n < 1000; n++) {
            left = n;
            code = of_a_plan ? smap_evaluate(words, 3, texts, 2, &map, &fault)
                             : smap_from_json_string(texts[1].at, texts[1].len, &map, &fault);
            left = -1;
            CHECK(code != SMAP_OUT_OF_MEMORY || is_fault(&fault, SMAP_OUT_OF_MEMORY, 0));
        }
        CHECK(code == SMAP_JSON_SHAPE && fault.place.kind == SMAP_PLACE_MEMBER && n > 2);
        CHECK(map == (smap_map *)&failed && kept == 0);
    }
}

/* Where memory alone can be wanted, *out stays too. */
static void nothing_is_made(void) {
    smap_join *join = (smap_join *)&failed;
    smap_builder *builder = (smap_builder *)&failed;
    left = 0;
    CHECK(smap_join_new(&join, NULL) == SMAP_OUT_OF_MEMORY && join == (smap_join *)&failed);
    left = 0;
    CHECK(smap_builder_new(&builder, NULL) == SMAP_OUT_OF_MEMORY && builder == (smap_builder *)&failed);
    left = -1;
}

/* A compiled map is made, opened and taken apart, or *out stays, whichever request is refused. */
static void nothing_is_compiled(void) {
    smap_map *map = read_map(A), *back = (smap_map *)&failed;
    smap_string *string = (smap_string *)&failed;
    smap_compiled *compiled = (smap_compiled *)&failed;
    smap_text bytes;
    long n;
#define UNTIL_MADE(out, call) \
    for (n = 0; left = n, (call) == SMAP_OUT_OF_MEMORY && n < 1000; n++) CHECK((void *)(out) == (void *)&failed); \
    left = -1; \
    CHECK(n > 0 && n < 1000 && (void *)(out) != (void *)&failed)
    UNTIL_MADE(string, smap_compile(map, 0, NULL, &string, NULL));
    CHECK(smap_get_text(string, &bytes) == SMAP_OK);
    UNTIL_MADE(compiled, smap_open_compiled(bytes.at, bytes.len, &compiled, NULL));
    UNTIL_MADE(back, smap_decompile(compiled, &back, NULL));
    smap_free_compiled(compiled);
    smap_free_string(string);
    smap_free_map(back);
    smap_free_map(map);
}

/* Scopes are read, or *out stays, whichever request is refused with all after it (alone the first of smap_decode_scopes is done without);
 * frames are written, or none, nor how many there are. */
static void nothing_is_read_of_scopes(void) {
    smap_scopes *read = (smap_scopes *)&failed, *scopes = (smap_scopes *)&failed;
    smap_frame frames[2];
    uint32_t is_hidden = 77;
    size_t count = 77;
    long n;
    refuses_on = 1;
    UNTIL_MADE(read, smap_read_scopes(TEXT("{\"names\":[\"f\",\"g\"],\"scopes\":\"" SCOPES "\"}"), &read, NULL));
    UNTIL_MADE(scopes, smap_decode_scopes(TEXT(SCOPES), 2, &scopes, NULL));
    frames[0].name = frames[1].name = 77;
    for (n = 0; left = n, smap_frames_at(scopes, 0, 12, LIST(frames), &count, &is_hidden) == SMAP_OUT_OF_MEMORY && n < 1000; n++)
        CHECK(count == 77 && is_hidden == 77 && frames[0].name == 77 && frames[1].name == 77);
    left = -1, refuses_on = 0;
    CHECK(n > 0 && n < 1000 && count == 2 && is_hidden == 0 && frames[0].name == 1 && frames[1].name == 0);
    smap_free_scopes(scopes);
    smap_free_scopes(read);
    CHECK(kept == 0);
}

/* A chain of scopes is written, or no entry, nor how many there are. */
static void nothing_is_chained(void) {
    smap_scopes *scopes;
    smap_chain_entry chain[2];
    CHECK(smap_decode_scopes(TEXT(SCOPES), 2, &scopes, NULL) == SMAP_OK);
    const long held = kept;
    for (int of_a_frame = 0; of_a_frame < 2; of_a_frame++) {
        uint32_t code = SMAP_OUT_OF_MEMORY;
        size_t count = 77;
        long n = 0;
        chain[0].scope = chain[0].range = chain[1].scope = chain[1].range = 77;
        for (; code == SMAP_OUT_OF_MEMORY && n < 1000; n++) {
            CHECK(count == 77 && chain[0].scope == 77 && chain[0].range == 77 && chain[1].scope == 77 && chain[1].range == 77);
            left = n;
            code = of_a_frame ? smap_scope_chain(scopes, 0, 0, 12, LIST(chain), &count)
                              : smap_scope_chain_at(scopes, 0, 12, LIST(chain), &count);
            left = -1;
            CHECK(kept == held);
        }
        CHECK(code == SMAP_OK && n > 1 && count == 2);
        CHECK(chain[0].scope == 1 && chain[0].range == 1 && chain[1].scope == 0 && chain[1].range == 0);
        /* (that there is no such frame or handle is told without memory) */
        left = 0;
        CHECK(smap_scope_chain(scopes, 2, 0, 12, LIST(chain), &count) == SMAP_NO_ENTRY && left == 0);
        CHECK(smap_scope_chain_at(NULL, 0, 12, LIST(chain), &count) == SMAP_NULL_HANDLE && left == 0);
        left = -1;
    }
    smap_free_scopes(scopes);
}

/* Lookups, counts and lists take no memory. */
static void no_memory_is_taken(void) {
    smap_map *map = read_map(A);
    smap_string *string;
    smap_compiled *compiled, *turned;
    smap_compiled_counts held;
    smap_map *back = (smap_map *)&failed;
    smap_original p;
    smap_position one = { 0, 4 };
    smap_piece pieces[4];
    smap_counts counts;
    smap_token tokens[4];
    smap_text texts[4];
    smap_scopes *scopes;
    smap_scopes_counts scopes_held;
    smap_scope scope;
    smap_range range;
    uint32_t n;
    size_t count;
    CHECK(smap_decode_scopes(TEXT(SCOPES), 2, &scopes, NULL) == SMAP_OK);
    CHECK(smap_index_sources(map, NULL) == SMAP_OK);
    CHECK(smap_compile(map, 0, NULL, &string, NULL) == SMAP_OK && smap_get_text(string, texts) == SMAP_OK);
    CHECK(smap_open_compiled(texts[0].at, texts[0].len, &compiled, NULL) == SMAP_OK);
    /* The first line begins behind the second. */
    unsigned char *bytes = (unsigned char *)malloc(texts[0].len);
    memcpy(bytes, texts[0].at, texts[0].len);
    bytes[88] = 255;
    CHECK(smap_open_compiled(bytes, texts[0].len, &turned, NULL) == SMAP_OK);
    left = 0;
    CHECK(smap_decompile(turned, &back, NULL) == SMAP_NO_ENTRY && back == (smap_map *)&failed);
    CHECK(smap_trace(map, 0, 4, SMAP_BEFORE, &p, NULL) == SMAP_OK &&
          smap_trace_all(map, &one, 1, SMAP_AFTER, &p, 1, NULL) == SMAP_OK);
    CHECK(smap_find_all(map, &one, 1, SMAP_CLAMPED, &n, 1, NULL) == SMAP_OK &&
          smap_pieces(map, one, at(9, 9), LIST(pieces), &count) == SMAP_OK);
    CHECK(smap_get_counts(map, &counts) == SMAP_OK && smap_get_tokens(map, LIST(tokens), &count) == SMAP_OK);
    CHECK(smap_get_names(map, LIST(texts), &count) == SMAP_OK && smap_get_source_contents(map, LIST(texts), &count) == SMAP_OK);
    CHECK(smap_all_generated(map, 0, 0, 9, SMAP_ON_LINE, &n, 1, &count) == SMAP_OK &&
          smap_first_difference(map, map, &one) == SMAP_NO_ENTRY);
    CHECK(smap_compiled_trace(compiled, 0, 4, SMAP_BEFORE, &p) == SMAP_OK && smap_compiled_get_stamp(compiled, texts) == SMAP_OK);
    CHECK(smap_compiled_trace_all(compiled, &one, 1, SMAP_AFTER, &p, 1) == SMAP_OK &&
          smap_compiled_find_all(compiled, &one, 1, SMAP_CLAMPED, &n, 1) == SMAP_OK);
    CHECK(smap_compiled_get_counts(compiled, &held) == SMAP_OK && smap_compiled_get_token(compiled, 1, tokens) == SMAP_OK);
    CHECK(smap_compiled_get_text(compiled, SMAP_TEXT_FILE, 0, texts) == SMAP_OK && smap_compiled_is_ignored(compiled, 1, &n) == SMAP_OK);
    CHECK(smap_scopes_get_counts(scopes, &scopes_held) == SMAP_OK && smap_get_scope(scopes, 1, &scope) == SMAP_OK);
    CHECK(smap_get_range(scopes, 1, &range) == SMAP_OK && smap_scope_at(scopes, 0, 3, 0, &n) == SMAP_OK);
    CHECK(smap_function_at(scopes, 0, 3, 0, &n) == SMAP_OK && smap_range_at(scopes, 0, 12, &n) == SMAP_OK);
    CHECK(smap_get_variables(scopes, 0, &n, 1, &count) == SMAP_OK && n == 0 && count == 2);
    CHECK(smap_value_at(scopes, 0, 1, 0, 4, &n) == SMAP_OK && n == 0 && smap_value_at(scopes, 0, 1, 0, 5, &n) == SMAP_OK && n == NO);
    CHECK(left == 0);
    left = -1;
    smap_free_scopes(scopes);
    smap_free_compiled(turned);
    free(bytes);
    smap_free_compiled(compiled);
    smap_free_string(string);
    smap_free_map(map);
}

void test_memory(void) {
    without_memory();
    places_without_memory();
    nothing_is_made();
    nothing_is_compiled();
    nothing_is_read_of_scopes();
    nothing_is_chained();
    no_memory_is_taken();
}

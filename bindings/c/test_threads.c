/* Threads: eight read one map, one string, one list of mends, one compiled map and the scopes of one at once, by every call that
 * takes a `const` handle, and each gets the answers that one thread gets; maps are made, changed and freed by threads that hand
 * them on; and handles of shared maps are made and freed by all at once. It is run under helgrind, and built with a thread
 * sanitizer. The last line says how many threads answered otherwise.
 *
 *   test_threads [ROUNDS | race]
 *
 * With `race` two threads change one map at once, which the header forbids: helgrind is to tell of it. */
#define _POSIX_C_SOURCE 200809L
#include "oxc_sourcemap.h"

#include <pthread.h>
#include <stdio.h>
#include <stdlib.h>
#include <string.h>

#define THREADS 8
#define LEN(array) (sizeof(array) / sizeof *(array))
#define TEXT(text) (text), strlen(text)

static const char *JSON = "{\"version\":3,\"file\":\"out.js\",\"sourceRoot\":\"src/\",\"names\":[\"hi\",\"ho\"],\"sources\":[\"a.ts\",\"b.ts\"],"
                          "\"sourcesContent\":[\"let hi;\",null],\"ignoreList\":[1],\"mappings\":\"AAAA,GAASA,K;CCCTC\",\"debugId\":\"d-1\"}";
static const char *INPUT = "{\"version\":3,\"names\":[],\"sources\":[\"a.js\"],\"mappings\":\"AACA\"}";

static const smap_map *map, *input;
static const smap_string *string;
static const smap_mends *mends;
static const smap_compiled *compiled;
static const smap_scopes *scopes;
static int rounds = 100;

static void must(uint32_t code) {
    if (code == SMAP_OK) return;
    printf("%s\n", smap_code_name(code));
    exit(3);
}

static void add(uint64_t *sum, uint64_t number) { *sum = (*sum * 31 + number) % 4294967291; }

/* (The sanitizer watches nothing in the library. So it does not see the counts of shared maps, by which a map is freed only after the last
 * thread has read it.) */
#ifdef __GNUC__
__attribute__((no_sanitize_thread))
#endif
static void add_text(uint64_t *sum, const smap_text *text) {
    add(sum, text->len);
    for (size_t i = 0; i < text->len; i++) add(sum, (unsigned char)text->at[i]);
}

static void add_string(uint64_t *sum, smap_string *it) {
    smap_text text;
    must(smap_get_text(it, &text));
    add_text(sum, &text);
    smap_free_string(it);
}

static void add_map(uint64_t *sum, smap_map *it) {
    smap_string *json;
    must(smap_to_json_string(it, &json, NULL));
    add_string(sum, json);
    smap_free_map(it);
}

static void add_original(uint64_t *sum, const smap_original *it) {
    add(sum, it->kind);
    add(sum, it->index);
    add(sum, it->token.src_col);
    add_text(sum, &it->source);
    add_text(sum, &it->name);
}

/* What a map holds. */
static void add_held(uint64_t *sum) {
    smap_counts counts;
    smap_text texts[8];
    smap_token tokens[8];
    smap_mend told[8];
    uint32_t ids[8];
    size_t count;
    must(smap_get_counts(map, &counts));
    add(sum, counts.tokens + counts.lines);
    must(smap_is_sorted(map, &ids[0]));
    must(smap_is_sound(map, &ids[1]));
    must(smap_get_name(map, 1, &texts[0]));
    must(smap_get_source(map, 1, &texts[1]));
    must(smap_get_source_content(map, 0, &texts[2]));
    must(smap_get_file(map, &texts[3]));
    must(smap_get_source_root(map, &texts[4]));
    must(smap_get_debug_id(map, &texts[5]));
    must(smap_get_text(string, &texts[6]));
    must(smap_get_token(map, 1, &tokens[0]));
    for (int i = 0; i < 7; i++) add_text(sum, &texts[i]);
    must(smap_get_tokens(map, tokens, 8, &count));
    for (size_t i = 0; i < count; i++) add(sum, tokens[i].dst_col + tokens[i].src_line);
    must(smap_get_names(map, texts, 8, &count));
    for (size_t i = 0; i < count; i++) add_text(sum, &texts[i]);
    must(smap_get_sources(map, texts, 8, &count));
    for (size_t i = 0; i < count; i++) add_text(sum, &texts[i]);
    must(smap_get_source_contents(map, texts, 8, &count));
    add(sum, count);
    must(smap_get_ignore_list(map, &ids[2], 6, &count));
    add(sum, ids[0] + ids[1] + ids[2] + count);
    must(smap_get_mends(mends, told, 8, &count));
    for (size_t i = 0; i < count; i++) add(sum, told[i].kind);
}

static void add_lookups(uint64_t *sum) {
    smap_position positions[5] = { { 0, 0 }, { 0, 4 }, { 0, 9 }, { 1, 0 }, { 1, 5 } }, first, end = { 9, 0 };
    smap_original all[5], one;
    smap_piece pieces[16];
    smap_token token;
    uint32_t found[5];
    size_t count;
    for (uint32_t bias = SMAP_BEFORE; bias <= SMAP_AFTER; bias++) {
        must(smap_trace_all(map, positions, 5, bias, all, 5, NULL));
        must(smap_find_all(map, positions, 5, bias, found, 5, NULL));
        must(smap_trace(map, 0, 4, bias, &one, NULL));
        for (int i = 0; i < 5; i++) add_original(sum, &all[i]), add(sum, found[i]);
        add_original(sum, &one);
    }
    must(smap_pieces(map, positions[0], end, pieces, 16, &count));
    for (size_t i = 0; i < count; i++) add(sum, pieces[i].index);
    must(smap_first_difference(map, input, &first));
    must(smap_generated(map, 0, 0, 9, SMAP_FOR, &found[0], &token));
    must(smap_all_generated(map, 1, 1, 0, SMAP_ON_LINE, &found[1], 4, &count));
    add(sum, first.column + found[0] + found[1] + count);
}

/* What a compiled map holds, what it answers, and the map that comes back. */
static void add_compiled(uint64_t *sum) {
    smap_position positions[5] = { { 0, 0 }, { 0, 4 }, { 0, 9 }, { 1, 0 }, { 1, 5 } };
    smap_original all[5], one;
    smap_compiled_counts counts;
    smap_token token;
    smap_text text;
    smap_map *back;
    uint32_t found[5], flag;
    for (uint32_t bias = SMAP_BEFORE; bias <= SMAP_AFTER; bias++) {
        must(smap_compiled_trace_all(compiled, positions, 5, bias, all, 5));
        must(smap_compiled_find_all(compiled, positions, 5, bias, found, 5));
        must(smap_compiled_trace(compiled, 0, 4, bias, &one));
        for (int i = 0; i < 5; i++) add_original(sum, &all[i]), add(sum, found[i]);
        add_original(sum, &one);
    }
    for (uint32_t kind = SMAP_TEXT_NAME; kind <= SMAP_TEXT_DEBUG_ID; kind++) {
        must(smap_compiled_get_text(compiled, kind, 0, &text));
        add_text(sum, &text);
    }
    must(smap_compiled_get_stamp(compiled, &text));
    add_text(sum, &text);
    must(smap_compiled_get_counts(compiled, &counts));
    must(smap_compiled_get_token(compiled, 1, &token));
    must(smap_compiled_is_ignored(compiled, 1, &flag));
    add(sum, counts.tokens + counts.text_length + token.dst_col + flag);
    must(smap_decompile(compiled, &back, NULL));
    add_map(sum, back);
}

/* What scopes hold, and what they answer. */
static void add_scopes(uint64_t *sum) {
    smap_scopes_counts counts;
    smap_scope scope;
    smap_range range;
    smap_frame frames[2];
    smap_chain_entry chain[2];
    uint32_t found[3], is_hidden, variable, value;
    size_t count;
    must(smap_scopes_get_counts(scopes, &counts));
    must(smap_get_scope(scopes, 1, &scope));
    must(smap_get_range(scopes, 1, &range));
    must(smap_scope_at(scopes, 0, 3, 0, &found[0]));
    must(smap_function_at(scopes, 0, 5, 0, &found[1]));
    must(smap_range_at(scopes, 0, 12, &found[2]));
    must(smap_frames_at(scopes, 0, 12, frames, 2, &count, &is_hidden));
    add(sum, counts.scopes + scope.end.line + range.end.column + found[0] + found[1] + found[2] + count + is_hidden);
    for (size_t i = 0; i < count; i++) add(sum, frames[i].name), add(sum, frames[i].scope), add(sum, frames[i].call.line);
    must(smap_get_variables(scopes, 0, &variable, 1, &count));
    must(smap_value_at(scopes, 0, 0, 0, 12, &value));
    add(sum, variable + value + count);
    must(smap_scope_chain_at(scopes, 0, 12, chain, 2, &count));
    for (size_t i = 0; i < count; i++) add(sum, chain[i].scope), add(sum, chain[i].range);
    must(smap_scope_chain(scopes, 1, 0, 12, chain, 2, &count));
    for (size_t i = 0; i < count; i++) add(sum, chain[i].scope), add(sum, chain[i].range);
}

/* What is made of a map. */
static void add_made(uint64_t *sum) {
    const smap_map *maps[2] = { map, input };
    smap_position positions[2] = { { 0, 0 }, { 5, 0 } };
    smap_text path = { "a.ts", 4 };
    smap_join *join;
    smap_map *made;
    smap_string *text;
    must(smap_clone(map, &made, NULL));
    add_map(sum, made);
    must(smap_compose(input, map, &made, NULL));
    add_map(sum, made);
    must(smap_remap(map, &path, 1, &input, 1, &made, NULL));
    add_map(sum, made);
    must(smap_join_all(maps, 2, positions, 2, &made, NULL));
    add_map(sum, made);
    must(smap_join_new(&join, NULL));
    must(smap_join_add(join, map, 0, 0, NULL));
    must(smap_join_finish(join, &made, NULL));
    add_map(sum, made);
    smap_free_join(join);
    must(smap_to_data_url(map, &text, NULL));
    add_string(sum, text);
    must(smap_get_mappings(map, &text, NULL));
    add_string(sum, text);
    must(smap_visualize(map, TEXT("let hi;"), &text, NULL));
    add_string(sum, text);
    must(smap_visualizer_url(map, TEXT("let hi;"), &text, NULL));
    add_string(sum, text);
    must(smap_compile(map, 7, NULL, &text, NULL));
    add_string(sum, text);
}

static void *reads(void *out) {
    uint64_t sum = 0;
    for (int round = 0; round < rounds; round++) {
        add_held(&sum);
        add_lookups(&sum);
        add_compiled(&sum);
        add_scopes(&sum);
        add_made(&sum);
    }
    *(uint64_t *)out = sum;
    return NULL;
}

/* Maps on their way from thread to thread. */
static pthread_mutex_t lock = PTHREAD_MUTEX_INITIALIZER;
static smap_map *waiting[THREADS];
static int handed, freed;

/* Puts a map where there is none, and takes one that is there. */
static smap_map *exchange(smap_map *given, int at) {
    pthread_mutex_lock(&lock);
    smap_map *taken = waiting[at];
    waiting[at] = given;
    pthread_mutex_unlock(&lock);
    return taken;
}

/* Makes maps and hands each on; changes and frees those that it gets. */
static void *moves(void *number) {
    int own = *(int *)number, got = 0;
    for (int round = 0; round < rounds; round++) {
        smap_map *made, *taken;
        smap_text file;
        must(smap_from_json_string(TEXT(JSON), &made, NULL));
        must(smap_set_file(made, TEXT("moved.js"), NULL));
        taken = exchange(made, (own + round) % THREADS);
        if (!taken) continue;
        must(smap_get_file(taken, &file));
        must(smap_index_sources(taken, NULL));
        must(smap_sort(taken, NULL));
        must(smap_set_source_root(taken, TEXT("r"), NULL));
        smap_free_map(taken);
        got++;
    }
    pthread_mutex_lock(&lock);
    handed += rounds, freed += got;
    pthread_mutex_unlock(&lock);
    return NULL;
}

/* A shared map that all threads read by one handle, and handles of another, of which each thread has one. */
static smap_map *common, *own_handles[THREADS];
static uint64_t answer;
static int strays;

/* Makes handles while the others do, looks up by each and frees it. Whoever ends last frees the map of its own handles. */
static void *retains(void *at) {
    smap_map *own = *(smap_map **)at, *next;
    smap_original found;
    int wrong = 0;
    for (int round = 0; round < rounds; round++) {
        for (int is_common = 0; is_common < 2; is_common++) {
            uint64_t sum = 0;
            must(smap_retain_map(is_common ? common : own, &next, NULL));
            must(smap_trace(next, 0, 4, SMAP_BEFORE, &found, NULL));
            add_original(&sum, &found);
            wrong += sum != answer || smap_set_file(next, TEXT("f"), NULL) != SMAP_SHARED;
            smap_free_map(is_common ? next : own);
            if (!is_common) own = next;
        }
    }
    smap_free_map(own);
    pthread_mutex_lock(&lock);
    strays += wrong;
    pthread_mutex_unlock(&lock);
    return NULL;
}

static void *changes(void *it) {
    for (int round = 0; round < rounds; round++) must(smap_set_file(it, TEXT("a file with a name"), NULL));
    return NULL;
}

/* Runs eight threads, each over its own entry. */
static void run(void *(*body)(void *), void *entries, size_t size) {
    pthread_t threads[THREADS];
    for (size_t i = 0; i < THREADS; i++)
        if (pthread_create(&threads[i], NULL, body, (char *)entries + i * size)) exit(3);
    for (size_t i = 0; i < THREADS; i++) pthread_join(threads[i], NULL);
}

/* Runs threads over the handles of two shared maps, and returns how many lookups answered otherwise, or changes were not refused. */
static int run_retains(void) {
    smap_original found;
    must(smap_from_json_string(TEXT(JSON), &common, NULL));
    must(smap_trace(common, 0, 4, SMAP_BEFORE, &found, NULL));
    add_original(&answer, &found);
    must(smap_share_map(common, NULL));
    must(smap_from_json_string(TEXT(JSON), &own_handles[0], NULL));
    must(smap_share_map(own_handles[0], NULL));
    for (int i = 1; i < THREADS; i++) must(smap_retain_map(own_handles[0], &own_handles[i], NULL));
    run(retains, own_handles, sizeof *own_handles);
    smap_free_map(common);
    return strays;
}

int main(int argc, char **argv) {
    smap_map *made, *other, *found;
    smap_string *text, *bytes;
    smap_mends *told;
    smap_compiled *opened;
    smap_scopes *of_map;
    smap_text lent;
    uint64_t wanted, sums[THREADS];
    int numbers[THREADS], wrong = 0;
    must(smap_from_json_string(TEXT(JSON), &made, NULL));
    if (argc > 1 && strcmp(argv[1], "race") == 0) {
        run(changes, made, 0);
        return 0;
    }
    if (argc > 1) rounds = atoi(argv[1]);
    must(smap_index_sources(made, NULL));
    must(smap_from_json_string(TEXT(INPUT), &other, NULL));
    must(smap_read_found(TEXT("{\"version\":\"3\",\"names\":null,\"mappings\":\"A\"}"), &found, &told, NULL));
    must(smap_to_json_string(made, &text, NULL));
    must(smap_compile(made, 7, NULL, &bytes, NULL));
    must(smap_get_text(bytes, &lent));
    must(smap_open_compiled(lent.at, lent.len, &opened, NULL));
    must(smap_decode_scopes(TEXT("BFAAA,DAC,BFCAC,CCA,CFA,EGAA,GCB,HBAFA,ECKC,IAFC,FK,FU"), 2, &of_map, NULL));
    map = made, input = other, string = text, mends = told, compiled = opened, scopes = of_map;
    reads(&wanted);
    run(reads, sums, sizeof *sums);
    for (int i = 0; i < THREADS; i++) wrong += sums[i] != wanted, numbers[i] = i;
    run(moves, numbers, sizeof *numbers);
    for (int i = 0; i < THREADS; i++) freed += waiting[i] != NULL, smap_free_map(waiting[i]);
    wrong += run_retains();
    smap_free_map(made);
    smap_free_map(other);
    smap_free_map(found);
    smap_free_string(text);
    smap_free_mends(told);
    smap_free_compiled(opened);
    smap_free_scopes(of_map);
    smap_free_string(bytes);
    printf("%d threads answered otherwise, %d of %d maps arrived\n", wrong, freed, handed);
    return wrong || freed != handed;
}

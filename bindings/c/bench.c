/* bench FILE.map [SMALL.map]: times the interface on a map: reading, writing, lookups one by one and in bulk, tokens in bulk; and on
 * a small one, if it is given, reading it 2,000 times, and joining these. The best of 20 runs, in nanoseconds: reading and writing
 * of FILE and the tokens in bulk for each token, lookups each, the small map for each map. What frees the results is not counted. */
#define _POSIX_C_SOURCE 199309L
#include "bench.h"
#include "oxc_sourcemap.h"

#include <stdio.h>
#include <stdlib.h>

#define LOOKUPS 100000
#define SMALL 2000
#define RUNS 20

static char *read_file(const char *path, size_t *len) {
    FILE *file = fopen(path, "rb");
    char *bytes = NULL;
    must(file && !fseek(file, 0, SEEK_END) && (bytes = malloc((*len = (size_t)ftell(file)) + 1)));
    rewind(file);
    must(fread(bytes, 1, *len, file) == *len);
    fclose(file);
    return bytes;
}

/* What each stage works on. */
static struct {
    char *json;
    size_t json_len;
    smap_map *map;
    smap_position positions[LOOKUPS];
    smap_original originals[LOOKUPS];
    uint32_t found[LOOKUPS];
    smap_token *tokens;
    smap_counts counts;
    smap_map *small[SMALL];
    smap_position starts[SMALL];
    smap_map *made;
    smap_string *text;
} it;

/* Frees what a stage has made. */
static void free_made(void) {
    smap_free_map(it.made);
    smap_free_string(it.text);
    it.made = NULL;
    it.text = NULL;
}

static void parse(void) {
    must(!smap_from_json_string(it.json, it.json_len, &it.made, NULL));
}

static void serialize(void) {
    must(!smap_to_json_string(it.map, &it.text, NULL));
}

static void look_up(void) {
    smap_original out;
    for (int i = 0; i < LOOKUPS; i++)
        if (!smap_trace(it.map, it.positions[i].line, it.positions[i].column, SMAP_BEFORE, &out,
            NULL)) sum += out.kind + out.source.len;
}

static void look_all_up(void) {
    must(!smap_trace_all(it.map, it.positions, LOOKUPS, SMAP_BEFORE, it.originals, LOOKUPS, NULL));
}

static void find_all(void) {
    must(!smap_find_all(it.map, it.positions, LOOKUPS, SMAP_BEFORE, it.found, LOOKUPS, NULL));
}

static void tokens_out(void) {
    size_t count;
    must(!smap_get_tokens(it.map, it.tokens, it.counts.tokens, &count));
}

static void read_small(void) {
    for (int i = 0; i < SMALL; i++) must(!smap_from_json_string(it.json, it.json_len, &it.small[i], NULL));
}

static void free_small(void) {
    for (int i = 0; i < SMALL; i++) smap_free_map(it.small[i]);
}

static void join_small(void) {
    must(!smap_join_all((const smap_map *const *)it.small, SMALL, it.starts, SMALL, &it.made, NULL));
}

static void nothing(void) {
}

/* Prints the best time of a stage, for each of so many. What follows a run is not counted. */
static void time_of(const char *name, void (*stage)(void), void (*after)(void), size_t each) {
    double best = 1e18;
    for (int run = 0; run < RUNS; run++) {
        double start = now();
        stage();
        double took = now() - start;
        if (took < best) best = took;
        after();
    }
    printf("%s %.2f\n", name, best / (double)each);
}

static void time_small(const char *path) {
    it.json = read_file(path, &it.json_len);
    for (uint32_t i = 0; i < SMALL; i++) it.starts[i].line = i;
    time_of("parse-small", read_small, free_small, SMALL);
    read_small();
    time_of("join-small", join_small, free_made, SMALL);
    free_small();
    free(it.json);
}

int main(int argc, char **argv) {
    must(argc > 1);
    it.json = read_file(argv[1], &it.json_len);
    must(!smap_from_json_string(it.json, it.json_len, &it.map, NULL) && !smap_get_counts(it.map, &it.counts));
    it.tokens = malloc(it.counts.tokens * sizeof *it.tokens + 1);
    for (int i = 0; i < LOOKUPS; i++) {
        it.positions[i].line = below(it.counts.lines + 1);
        it.positions[i].column = below(200);
    }
    time_of("parse", parse, free_made, it.counts.tokens);
    time_of("serialize", serialize, free_made, it.counts.tokens);
    time_of("lookup", look_up, nothing, LOOKUPS);
    time_of("trace_all", look_all_up, nothing, LOOKUPS);
    time_of("find_all", find_all, nothing, LOOKUPS);
    time_of("tokens", tokens_out, nothing, it.counts.tokens);
    free(it.json);
    if (argc > 2) time_small(argv[2]);
    fprintf(stderr, "%llu\n", (unsigned long long)sum);
    smap_free_map(it.map);
    free(it.tokens);
    return 0;
}

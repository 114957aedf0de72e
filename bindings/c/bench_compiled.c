/* bench_compiled [compare] FILE.map..: compares each map that can be read with what it is compiled to, and times both. It asks them for
 * 32768 positions, those of tokens, one column before and behind them, and others, by each bias, and ends with status 1 at the first
 * answer that differs. With `compare` that is all.
 *
 * Else it prints, in a line for each map: its tokens; the bytes of its text and of the compiled map; nanoseconds of a lookup, in the map
 * and compiled: one by one at positions of random tokens, and by smap_find_all; nanoseconds to open and to free the compiled map;
 * microseconds to read the text, and to compile. Times are the best of several rounds. The last line has what the compiled maps take
 * to what the maps do: the bytes of all, of the times the geometric mean; and the mean time to open. */
#define _POSIX_C_SOURCE 199309L
#include "bench.h"
#include "oxc_sourcemap.h"

#include <math.h>
#include <stdio.h>
#include <stdlib.h>
#include <string.h>

#define LOOKUPS 32768
#define ROUNDS 15
#define OPENINGS 1000

/* What each stage works on. */
static struct {
    char *json;
    size_t json_len;
    smap_map *map, *read;
    smap_string *string, *made;
    smap_text bytes;
    smap_compiled *compiled;
    smap_counts counts;
    smap_fault fault;
    smap_position positions[LOOKUPS];
    smap_original originals[LOOKUPS], found[LOOKUPS];
    uint32_t indices[LOOKUPS], found_indices[LOOKUPS];
} it;

static void open_bytes(smap_compiled **out) {
    must(!smap_open_compiled(it.bytes.at, it.bytes.len, out, NULL));
}

/* ---- the same answers ---- */

/* Positions of random tokens; with `beside` most are one column before or behind one, or at it, and some are any. */
static void choose_positions(int beside) {
    for (int i = 0; i < LOOKUPS; i++) {
        smap_token token;
        must(!smap_get_token(it.map, below(it.counts.tokens), &token));
        it.positions[i].line = token.dst_line, it.positions[i].column = token.dst_col;
        if (!beside) continue;
        it.positions[i].column += below(3) - 1;
        if (below(4)) continue;
        it.positions[i].line = below(it.counts.lines + 2), it.positions[i].column = below(2) ? below(200) : below(100000);
    }
}

static int is_text(const smap_text *one, const smap_text *other) {
    return one->len == other->len && memcmp(one->at, other->at, one->len) == 0;
}

static int is_same(const smap_original *one, const smap_original *other) {
    return one->kind == other->kind && one->index == other->index && memcmp(&one->token, &other->token, sizeof one->token) == 0 &&
           is_text(&one->source, &other->source) && is_text(&one->name, &other->name);
}

/* Whether all calls say the same of each position by this bias; else the first that does not is told. */
static int answers_same(const char *path, uint32_t bias) {
    must(!smap_compiled_trace_all(it.compiled, it.positions, LOOKUPS, bias, it.found, LOOKUPS));
    must(!smap_compiled_find_all(it.compiled, it.positions, LOOKUPS, bias, it.found_indices, LOOKUPS));
    for (int i = 0; i < LOOKUPS; i++) {
        smap_position at = it.positions[i];
        smap_original wanted, one;
        smap_token token;
        must(!smap_trace(it.map, at.line, at.column, bias, &wanted, NULL));
        must(!smap_compiled_trace(it.compiled, at.line, at.column, bias, &one));
        int is_so = is_same(&wanted, &one) && is_same(&wanted, &it.found[i]) && it.found_indices[i] == wanted.index;
        if (wanted.kind != SMAP_NOTHING)
            is_so &= !smap_compiled_get_token(it.compiled, wanted.index, &token) && !memcmp(&token, &wanted.token, sizeof token);
        if (is_so) continue;
        printf("%s: line %u, column %u, bias %u: token %u, compiled %u\n", path, at.line, at.column, bias, wanted.index, one.index);
        return 0;
    }
    return 1;
}

/* Whether the map comes back, and traces are the same everywhere. */
static int comes_back(const char *path) {
    smap_map *back;
    smap_position first;
    must(!smap_decompile(it.compiled, &back, NULL));
    int is_so = smap_first_difference(it.map, back, &first) == SMAP_NO_ENTRY;
    if (!is_so) printf("%s: line %u, column %u: another trace after smap_decompile\n", path, first.line, first.column);
    smap_free_map(back);
    return is_so;
}

/* ---- times ---- */

static void look_up(void) {
    smap_original out;
    for (int i = 0; i < LOOKUPS; i++)
        if (!smap_trace(it.map, it.positions[i].line, it.positions[i].column, SMAP_BEFORE, &out, NULL)) sum += out.kind + out.source.len;
}

static void look_up_compiled(void) {
    smap_original out;
    for (int i = 0; i < LOOKUPS; i++)
        if (!smap_compiled_trace(it.compiled, it.positions[i].line, it.positions[i].column, SMAP_BEFORE, &out))
            sum += out.kind + out.source.len;
}

static void find_all(void) {
    must(!smap_find_all(it.map, it.positions, LOOKUPS, SMAP_BEFORE, it.indices, LOOKUPS, NULL));
}

static void find_all_compiled(void) {
    must(!smap_compiled_find_all(it.compiled, it.positions, LOOKUPS, SMAP_BEFORE, it.indices, LOOKUPS));
}

static void open_and_free(void) {
    for (int i = 0; i < OPENINGS; i++) {
        smap_compiled *opened;
        open_bytes(&opened);
        smap_free_compiled(opened);
    }
}

static void read_text(void) {
    must(!smap_read_found(it.json, it.json_len, &it.read, NULL, NULL));
}

static void compile(void) {
    must(!smap_compile(it.map, it.json_len, NULL, &it.made, NULL));
}

/* Frees what a round has made. */
static void free_made(void) {
    smap_free_map(it.read);
    smap_free_string(it.made);
    it.read = NULL, it.made = NULL;
}

/* The best time of so many rounds, for each of so many. What follows a round is not counted. */
static double time_of(void (*stage)(void), int rounds, double each) {
    double best = 1e18;
    for (int round = 0; round < rounds; round++) {
        double start = now();
        stage();
        double took = now() - start;
        if (took < best) best = took;
        free_made();
    }
    return best / each;
}

/* ---- the maps ---- */

/* What is added up of all maps. */
static struct {
    int maps;
    double text_bytes, bytes, lookup, find_all, open, compile;
} all;

/* Reads a map, compiles it and opens that; returns whether it was read, and has tokens. */
static int begin(const char *path) {
    FILE *file = fopen(path, "rb");
    if (!file || fseek(file, 0, SEEK_END)) return 0;
    it.json_len = (size_t)ftell(file);
    it.json = malloc(it.json_len + 1);
    rewind(file);
    must(it.json && fread(it.json, 1, it.json_len, file) == it.json_len);
    fclose(file);
    if (smap_read_found(it.json, it.json_len, &it.map, NULL, &it.fault)) return 0;
    must(!smap_get_counts(it.map, &it.counts) && !smap_compile(it.map, it.json_len, NULL, &it.string, NULL));
    must(!smap_get_text(it.string, &it.bytes));
    open_bytes(&it.compiled);
    return it.counts.tokens != 0;
}

static void end(void) {
    smap_free_compiled(it.compiled);
    smap_free_string(it.string);
    smap_free_map(it.map);
    free(it.json);
    it.compiled = NULL, it.string = NULL, it.map = NULL, it.json = NULL, it.fault.code = SMAP_OK;
}

static void time_map(const char *path) {
    int rounds = it.json_len > 4000000 ? 3 : ROUNDS;
    choose_positions(0);
    double trace = time_of(look_up, ROUNDS, LOOKUPS), trace_compiled = time_of(look_up_compiled, ROUNDS, LOOKUPS);
    double find = time_of(find_all, ROUNDS, LOOKUPS), find_compiled = time_of(find_all_compiled, ROUNDS, LOOKUPS);
    double opening = time_of(open_and_free, ROUNDS, OPENINGS);
    double reading = time_of(read_text, rounds, 1000), compiling = time_of(compile, rounds, 1000);
    printf("%s: %lu tokens, %lu bytes, compiled %lu; lookup %.1f, compiled %.1f; find_all %.1f, compiled %.1f; open %.1f; "
           "read %.0f us, compile %.0f us\n", path, (unsigned long)it.counts.tokens, (unsigned long)it.json_len,
           (unsigned long)it.bytes.len, trace, trace_compiled, find, find_compiled, opening, reading, compiling);
    all.maps++;
    all.text_bytes += (double)it.json_len, all.bytes += (double)it.bytes.len, all.open += opening;
    all.lookup += log(trace_compiled / trace), all.find_all += log(find_compiled / find), all.compile += log(compiling / reading);
}

int main(int argc, char **argv) {
    int is_timed = argc < 2 || strcmp(argv[1], "compare") != 0;
    for (int i = 2 - is_timed; i < argc; i++) {
        if (begin(argv[i])) {
            choose_positions(1);
            for (uint32_t bias = SMAP_BEFORE; bias <= SMAP_AFTER; bias++)
                if (!answers_same(argv[i], bias)) return 1;
            if (!comes_back(argv[i])) return 1;
            if (is_timed) time_map(argv[i]);
        } else printf("%s: passed over, %s\n", argv[i], it.fault.code ? smap_code_name(it.fault.code) : "no tokens");
        end();
    }
    if (!is_timed) return 0;
    double n = all.maps ? all.maps : 1;
    printf("%d maps, compiled to what they are: bytes %.3f, lookup %.2f, find_all %.2f, compile to read %.3f; open %.1f\n", all.maps,
           all.bytes / (all.text_bytes ? all.text_bytes : 1), exp(all.lookup / n), exp(all.find_all / n), exp(all.compile / n),
           all.open / n);
    fprintf(stderr, "%llu\n", (unsigned long long)sum);
    return 0;
}

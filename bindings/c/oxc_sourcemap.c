/* The layer between oxc_sourcemap.h and the proved library. Each smap_X hands on to proved_X, whose prototype tools/build/prototypes
 * makes from its signature. What is done here is what a proved function cannot do with what C passes:
 *  - null gets something to point to: an empty text, an array of no entries, an output that the caller does not want (a single lookup
 *    without a fault has an export of its own, which is quicker);
 *  - a handle goes in as a struct of one pointer, and one that is made goes to *out on success alone;
 *  - an array of texts with null entries, and one of maps, is copied;
 *  - of the contents of sources, those that are told not to be known get a null address. */
#define _POSIX_C_SOURCE 200809L
#include "layer.h"

#include <stdlib.h>
#include <string.h>

/* (a module for WebAssembly has no files) */
#ifdef __unix__
#include <errno.h>
#include <fcntl.h>
#include <sys/mman.h>
#include <sys/stat.h>
#include <unistd.h>
#endif

/* Stand for arrays of no entries. */
static const smap_token no_token;
static const smap_position no_position;
static const uint32_t no_number;

static uint32_t out_of_memory(smap_fault *fault) {
    static const smap_fault none;
    *fault = none;
    return fault->code = SMAP_OUT_OF_MEMORY;
}

/* Up to this many texts or maps are copied without a request for memory. */
#define FEW 16

/* Texts, of which none is null, and for each a byte that says whether it was not. */
typedef struct text_list {
    const smap_text *at;
    char *known;
    void *block;
    smap_text few[FEW];
    char few_known[FEW];
} text_list;

/* Fills in texts, and returns whether there was memory; end_texts frees it. */
static int begin_texts(text_list *it, const smap_text *from, size_t len) {
    smap_text *copy = it->few;
    it->known = it->few_known;
    it->block = NULL;
    if (len > FEW) {
        it->block = copy = calloc(len, sizeof *copy + 1);
        if (!copy) return 0;
        it->known = (char *)(copy + len);
    }
    for (size_t i = 0; i < len; i++) {
        it->known[i] = from[i].at != NULL;
        copy[i].at = OR(from[i].at, "");
        copy[i].len = from[i].len;
    }
    it->at = copy;
    return 1;
}

static void end_texts(text_list *it) {
    free(it->block);
}

/* Maps as a proved call takes them. */
typedef struct map_list {
    proved_lent *at;
    proved_lent few[FEW];
} map_list;

/* Fills in maps, and returns whether there was memory; end_maps frees it. */
static int begin_maps(map_list *it, const smap_map *const *from, size_t len) {
    it->at = len > FEW ? calloc(len, sizeof *it->at) : it->few;
    if (!it->at) return 0;
    for (size_t i = 0; i < len; i++) it->at[i].at = from[i];
    return 1;
}

static void end_maps(map_list *it) {
    if (it->at != it->few) free(it->at);
}

uint32_t smap_version(void) {
    return SMAP_VERSION;
}

/* ---- reading ---- */

uint32_t smap_from_json_string(const char *json, size_t json_len, smap_map **out, smap_fault *fault) {
    smap_fault own;
    proved_handle made = { NULL };
    uint32_t code = proved_from_json_string(OR(json, ""), json_len, &made, OR(fault, &own));
    if (code == SMAP_OK) *out = made.at;
    return code;
}

uint32_t smap_read_found(const char *text, size_t text_len, smap_map **out, smap_mends **mends, smap_fault *fault) {
    smap_fault own;
    proved_handle made = { NULL }, told = { NULL };
    uint32_t code = proved_read_found(OR(text, ""), text_len, &made, &told, OR(fault, &own));
    if (code != SMAP_OK) return code;
    *out = made.at;
    if (mends) *mends = told.at;
    else proved_free_mends(&told);
    return code;
}

uint32_t smap_get_mends(const smap_mends *mends, smap_mend *out, size_t out_len, size_t *count) {
    smap_mend none;
    return proved_get_mends(LENT(mends), OR(out, &none), out_len, count);
}

size_t smap_mend_message(const smap_mend *mend, char *out, size_t out_len) {
    char none;
    return proved_mend_message(mend, OR(out, &none), out_len);
}

uint32_t smap_from_tokens(const smap_token *tokens, size_t tokens_len, const smap_text *names, size_t names_len,
                          const smap_text *sources, size_t sources_len, const smap_text *contents, size_t contents_len,
                          const uint32_t *ignore_list, size_t ignore_list_len, smap_map **out, smap_fault *fault) {
    smap_fault own;
    proved_handle made = { NULL };
    text_list n, s, c;
    uint32_t code = SMAP_OUT_OF_MEMORY;
    int is_there = begin_texts(&n, names, names_len) & begin_texts(&s, sources, sources_len) & begin_texts(&c, contents, contents_len);
    if (is_there)
        code = proved_from_tokens(OR(tokens, &no_token), tokens_len, n.at, names_len, s.at, sources_len, c.at, contents_len,
                                  c.known, contents_len, OR(ignore_list, &no_number), ignore_list_len, &made, OR(fault, &own));
    else out_of_memory(OR(fault, &own));
    end_texts(&n);
    end_texts(&s);
    end_texts(&c);
    if (code == SMAP_OK) *out = made.at;
    return code;
}

uint32_t smap_clone(const smap_map *map, smap_map **out, smap_fault *fault) {
    smap_fault own;
    proved_handle made = { NULL };
    uint32_t code = proved_clone(LENT(map), &made, OR(fault, &own));
    if (code == SMAP_OK) *out = made.at;
    return code;
}

uint32_t smap_share_map(smap_map *map, smap_fault *fault) {
    smap_fault own;
    return proved_share_map(HANDLE(map), OR(fault, &own));
}

uint32_t smap_retain_map(const smap_map *map, smap_map **out, smap_fault *fault) {
    smap_fault own;
    proved_handle made = { NULL };
    uint32_t code = proved_retain_map(LENT(map), &made, OR(fault, &own));
    if (code == SMAP_OK) *out = made.at;
    return code;
}

void smap_free_map(smap_map *map) {
    if (map) proved_free_map(HANDLE(map));
}

void smap_free_mends(smap_mends *mends) {
    if (mends) proved_free_mends(HANDLE(mends));
}

/* ---- what a map holds ---- */

uint32_t smap_get_counts(const smap_map *map, smap_counts *out) {
    return proved_get_counts(LENT(map), out);
}

uint32_t smap_is_sorted(const smap_map *map, uint32_t *out) {
    return proved_is_sorted(LENT(map), out);
}

uint32_t smap_is_sound(const smap_map *map, uint32_t *out) {
    return proved_is_sound(LENT(map), out);
}

uint32_t smap_get_name(const smap_map *map, uint32_t id, smap_text *out) {
    return proved_get_name(LOAN(map), id, out);
}

uint32_t smap_get_source(const smap_map *map, uint32_t id, smap_text *out) {
    return proved_get_source(LOAN(map), id, out);
}

uint32_t smap_get_source_content(const smap_map *map, uint32_t id, smap_text *out) {
    return proved_get_source_content(LOAN(map), id, out);
}

uint32_t smap_get_file(const smap_map *map, smap_text *out) {
    return proved_get_file(LOAN(map), out);
}

uint32_t smap_get_source_root(const smap_map *map, smap_text *out) {
    return proved_get_source_root(LOAN(map), out);
}

uint32_t smap_get_debug_id(const smap_map *map, smap_text *out) {
    return proved_get_debug_id(LOAN(map), out);
}

uint32_t smap_get_token(const smap_map *map, uint32_t index, smap_token *out) {
    return proved_get_token(LENT(map), index, out);
}

uint32_t smap_get_tokens(const smap_map *map, smap_token *out, size_t out_len, size_t *count) {
    smap_token none;
    return proved_get_tokens(LENT(map), OR(out, &none), out_len, count);
}

uint32_t smap_get_names(const smap_map *map, smap_text *out, size_t out_len, size_t *count) {
    smap_text none;
    return proved_get_names(LOAN(map), OR(out, &none), out_len, count);
}

uint32_t smap_get_sources(const smap_map *map, smap_text *out, size_t out_len, size_t *count) {
    smap_text none;
    return proved_get_sources(LOAN(map), OR(out, &none), out_len, count);
}

uint32_t smap_get_source_contents(const smap_map *map, smap_text *out, size_t out_len, size_t *count) {
    smap_text none;
    char known[FEW];
    size_t done = 0, left, all = 0;
    do {
        size_t room = out_len - done < FEW ? out_len - done : FEW;
        uint32_t code = proved_get_source_contents(LOAN(map), done, OR(out, &none) + done, room, known, room, &left);
        if (code != SMAP_OK) return code;
        if (!done) all = left;
        for (size_t i = 0; i < room && i < left; i++)
            if (!known[i]) out[done + i].at = NULL;
        done += room;
    } while (done < out_len && done < all);
    *count = all;
    return SMAP_OK;
}

uint32_t smap_get_ignore_list(const smap_map *map, uint32_t *out, size_t out_len, size_t *count) {
    uint32_t none;
    return proved_get_ignore_list(LENT(map), OR(out, &none), out_len, count);
}

/* ---- lookups ---- */

uint32_t smap_trace(const smap_map *map, uint32_t line, uint32_t column, uint32_t bias, smap_original *out, smap_fault *fault) {
    if (!fault) return proved_trace_code(LOAN(map), line, column, bias, out);
    return proved_trace(LOAN(map), line, column, bias, out, fault);
}

uint32_t smap_trace_all(const smap_map *map, const smap_position *positions, size_t positions_len, uint32_t bias,
                        smap_original *out, size_t out_len, smap_fault *fault) {
    smap_fault own;
    smap_original none;
    return proved_trace_all(LOAN(map), OR(positions, &no_position), positions_len, bias, OR(out, &none), out_len, OR(fault, &own));
}

uint32_t smap_find_all(const smap_map *map, const smap_position *positions, size_t positions_len, uint32_t bias, uint32_t *out,
                       size_t out_len, smap_fault *fault) {
    smap_fault own;
    uint32_t none;
    return proved_find_all(LENT(map), OR(positions, &no_position), positions_len, bias, OR(out, &none), out_len, OR(fault, &own));
}

uint32_t smap_pieces(const smap_map *map, smap_position begin, smap_position end, smap_piece *out, size_t out_len, size_t *count) {
    smap_piece none;
    return proved_pieces(LENT(map), &begin, &end, OR(out, &none), out_len, count);
}

uint32_t smap_first_difference(const smap_map *map, const smap_map *other, smap_position *out) {
    return proved_first_difference(LENT(map), LENT(other), out);
}

uint32_t smap_index_sources(smap_map *map, smap_fault *fault) {
    smap_fault own;
    return proved_index_sources(HANDLE(map), OR(fault, &own));
}

uint32_t smap_generated(const smap_map *map, uint32_t source_id, uint32_t line, uint32_t column, uint32_t direction,
                        uint32_t *index, smap_token *token) {
    return proved_generated(LENT(map), source_id, line, column, direction, index, token);
}

uint32_t smap_all_generated(const smap_map *map, uint32_t source_id, uint32_t line, uint32_t column, uint32_t direction,
                            uint32_t *out, size_t out_len, size_t *count) {
    uint32_t none;
    return proved_all_generated(LENT(map), source_id, line, column, direction, OR(out, &none), out_len, count);
}

/* ---- compiled maps ---- */

uint32_t smap_compile(const smap_map *map, uint64_t text_length, const unsigned char *stamp, smap_string **out, smap_fault *fault) {
    static const char zeros[32];
    smap_fault own;
    proved_handle made = { NULL };
    uint32_t code = proved_compile(LENT(map), text_length, OR((const char *)stamp, zeros), 32, &made, OR(fault, &own));
    if (code == SMAP_OK) *out = made.at;
    return code;
}

uint32_t smap_open_compiled(const void *bytes, size_t len, smap_compiled **out, smap_fault *fault) {
    smap_fault own;
    proved_handle made = { NULL };
    uint32_t code = proved_open_compiled(OR(bytes, ""), len, &made, OR(fault, &own));
    if (code == SMAP_OK) *out = made.at;
    return code;
}

void smap_free_compiled(smap_compiled *compiled) {
    if (compiled) proved_free_compiled(HANDLE(compiled));
}

uint32_t smap_compiled_get_counts(const smap_compiled *compiled, smap_compiled_counts *out) {
    return proved_compiled_counts(LENT(compiled), out);
}

uint32_t smap_compiled_trace(const smap_compiled *compiled, uint32_t line, uint32_t column, uint32_t bias, smap_original *out) {
    return proved_compiled_trace(LOAN(compiled), line, column, bias, out);
}

uint32_t smap_compiled_trace_all(const smap_compiled *compiled, const smap_position *positions, size_t positions_len, uint32_t bias,
                                 smap_original *out, size_t out_len) {
    smap_original none;
    return proved_compiled_trace_all(LOAN(compiled), OR(positions, &no_position), positions_len, bias, OR(out, &none), out_len);
}

uint32_t smap_compiled_find_all(const smap_compiled *compiled, const smap_position *positions, size_t positions_len, uint32_t bias,
                                uint32_t *out, size_t out_len) {
    uint32_t none;
    return proved_compiled_find_all(LENT(compiled), OR(positions, &no_position), positions_len, bias, OR(out, &none), out_len);
}

uint32_t smap_compiled_get_token(const smap_compiled *compiled, uint32_t index, smap_token *out) {
    return proved_compiled_token(LENT(compiled), index, out);
}

uint32_t smap_compiled_get_text(const smap_compiled *compiled, uint32_t kind, uint32_t id, smap_text *out) {
    return proved_compiled_text(LOAN(compiled), kind, id, out);
}

uint32_t smap_compiled_get_stamp(const smap_compiled *compiled, smap_text *out) {
    return proved_compiled_stamp(LOAN(compiled), out);
}

uint32_t smap_compiled_is_ignored(const smap_compiled *compiled, uint32_t id, uint32_t *out) {
    return proved_compiled_is_ignored(LENT(compiled), id, out);
}

uint32_t smap_decompile(const smap_compiled *compiled, smap_map **out, smap_fault *fault) {
    smap_fault own;
    proved_handle made = { NULL };
    uint32_t code = proved_decompile(LENT(compiled), &made, OR(fault, &own));
    if (code == SMAP_OK) *out = made.at;
    return code;
}

struct smap_file {
    void *at;
    size_t len;
};

static uint32_t no_file(int reason, smap_fault *fault) {
    *fault = (smap_fault){ .code = SMAP_NO_FILE, .detail = (uint64_t)reason };
    return SMAP_NO_FILE;
}

#ifdef __unix__

/* The bytes of an open file, mapped into memory; of an empty one none. Returns 0, or the errno, or -1 if it is no plain file. */
static int map_open_file(int from, struct smap_file *file) {
    struct stat found;
    if (fstat(from, &found) != 0) return errno;
    if (!S_ISREG(found.st_mode)) return -1;
    file->len = (size_t)found.st_size;
    file->at = file->len ? mmap(NULL, file->len, PROT_READ, MAP_SHARED, from, 0) : NULL;
    if (file->at == MAP_FAILED) return errno;
    if (file->at) posix_madvise(file->at, file->len, POSIX_MADV_RANDOM); /* (lookups need pages here and there, none beside them) */
    return 0;
}

/* (without O_NONBLOCK a pipe would be waited for until somebody writes) */
uint32_t smap_map_file(const char *path, smap_file **out, smap_text *bytes, smap_fault *fault) {
    smap_fault own;
    smap_file *file = malloc(sizeof *file);
    int from = -1, reason;
    if (!fault) fault = &own;
    if (!file) return out_of_memory(fault);
    from = open(path, O_RDONLY | O_CLOEXEC | O_NONBLOCK);
    reason = from < 0 ? errno : map_open_file(from, file);
    if (from >= 0) close(from);
    if (reason != 0) {
        free(file);
        return no_file(reason < 0 ? 0 : reason, fault);
    }
    bytes->at = OR(file->at, "");
    bytes->len = file->len;
    *out = file;
    *fault = (smap_fault){ 0 };
    return SMAP_OK;
}

void smap_free_file(smap_file *file) {
    if (file && file->at) munmap(file->at, file->len);
    free(file);
}

static const char *words_of(int reason, char *room, size_t len) {
    return strerror_r(reason, room, len) == 0 ? room : "It cannot be read";
}

#else

uint32_t smap_map_file(const char *path, smap_file **out, smap_text *bytes, smap_fault *fault) {
    smap_fault own;
    (void)path, (void)out, (void)bytes;
    return no_file(0, OR(fault, &own));
}

void smap_free_file(smap_file *file) {
    free(file);
}

static const char *words_of(int reason, char *room, size_t len) {
    (void)reason, (void)room, (void)len;
    return "It cannot be read";
}

#endif

/* ---- changing ---- */

uint32_t smap_set_file(smap_map *map, const char *file, size_t file_len, smap_fault *fault) {
    smap_fault own;
    return proved_set_file(HANDLE(map), OR(file, ""), file_len, OR(fault, &own));
}

uint32_t smap_set_source_root(smap_map *map, const char *root, size_t root_len, smap_fault *fault) {
    smap_fault own;
    return proved_set_source_root(HANDLE(map), OR(root, ""), root_len, OR(fault, &own));
}

uint32_t smap_set_debug_id(smap_map *map, const char *id, size_t id_len, smap_fault *fault) {
    smap_fault own;
    return proved_set_debug_id(HANDLE(map), OR(id, ""), id_len, OR(fault, &own));
}

uint32_t smap_set_ignore_list(smap_map *map, const uint32_t *ids, size_t ids_len, smap_fault *fault) {
    smap_fault own;
    return proved_set_ignore_list(HANDLE(map), OR(ids, &no_number), ids_len, OR(fault, &own));
}

uint32_t smap_set_sources(smap_map *map, const smap_text *sources, size_t sources_len, smap_fault *fault) {
    smap_fault own;
    text_list it;
    if (!begin_texts(&it, sources, sources_len)) return out_of_memory(OR(fault, &own));
    uint32_t code = proved_set_sources(HANDLE(map), it.at, sources_len, OR(fault, &own));
    end_texts(&it);
    return code;
}

uint32_t smap_set_source_contents(smap_map *map, const smap_text *contents, size_t contents_len, smap_fault *fault) {
    smap_fault own;
    text_list it;
    if (!begin_texts(&it, contents, contents_len)) return out_of_memory(OR(fault, &own));
    uint32_t code = proved_set_source_contents(HANDLE(map), it.at, contents_len, it.known, contents_len, OR(fault, &own));
    end_texts(&it);
    return code;
}

uint32_t smap_apply_source_root(smap_map *map, smap_fault *fault) {
    smap_fault own;
    return proved_apply_source_root(HANDLE(map), OR(fault, &own));
}

uint32_t smap_sort(smap_map *map, smap_fault *fault) {
    smap_fault own;
    return proved_sort(HANDLE(map), OR(fault, &own));
}

uint32_t smap_simplify(smap_map *map, smap_fault *fault) {
    smap_fault own;
    return proved_simplify(HANDLE(map), OR(fault, &own));
}

/* ---- maps of maps ---- */

uint32_t smap_compose(const smap_map *map, const smap_map *input, smap_map **out, smap_fault *fault) {
    smap_fault own;
    proved_handle made = { NULL };
    uint32_t code = proved_compose(LENT(map), LENT(input), &made, OR(fault, &own));
    if (code == SMAP_OK) *out = made.at;
    return code;
}

uint32_t smap_remap(const smap_map *map, const smap_text *paths, size_t paths_len, const smap_map *const *inputs, size_t inputs_len,
                    smap_map **out, smap_fault *fault) {
    smap_fault own;
    proved_handle made = { NULL };
    text_list p;
    map_list m;
    uint32_t code = SMAP_OUT_OF_MEMORY;
    int is_there = begin_texts(&p, paths, paths_len) & begin_maps(&m, inputs, inputs_len);
    if (is_there) code = proved_remap(LENT(map), p.at, paths_len, m.at, inputs_len, &made, OR(fault, &own));
    else out_of_memory(OR(fault, &own));
    end_texts(&p);
    end_maps(&m);
    if (code == SMAP_OK) *out = made.at;
    return code;
}

uint32_t smap_join_all(const smap_map *const *maps, size_t maps_len, const smap_position *positions, size_t positions_len,
                       smap_map **out, smap_fault *fault) {
    smap_fault own;
    proved_handle made = { NULL };
    map_list m;
    if (!begin_maps(&m, maps, maps_len)) return out_of_memory(OR(fault, &own));
    uint32_t code = proved_join_all(m.at, maps_len, OR(positions, &no_position), positions_len, &made, OR(fault, &own));
    end_maps(&m);
    if (code == SMAP_OK) *out = made.at;
    return code;
}

uint32_t smap_join_new(smap_join **out, smap_fault *fault) {
    smap_fault own;
    proved_handle made = { NULL };
    uint32_t code = proved_join_new(&made, OR(fault, &own));
    if (code == SMAP_OK) *out = made.at;
    return code;
}

uint32_t smap_join_add(smap_join *join, const smap_map *map, uint32_t line, uint32_t column, smap_fault *fault) {
    smap_fault own;
    return proved_join_add(HANDLE(join), LENT(map), line, column, OR(fault, &own));
}

uint32_t smap_join_finish(smap_join *join, smap_map **out, smap_fault *fault) {
    smap_fault own;
    proved_handle made = { NULL };
    uint32_t code = proved_join_finish(HANDLE(join), &made, OR(fault, &own));
    if (code == SMAP_OK) *out = made.at;
    return code;
}

void smap_free_join(smap_join *join) {
    if (join) proved_free_join(HANDLE(join));
}

uint32_t smap_evaluate(const smap_text *words, size_t words_len, const smap_text *texts, size_t texts_len, smap_map **out,
                       smap_fault *fault) {
    smap_fault own;
    proved_handle made = { NULL };
    text_list w, t;
    uint32_t code = SMAP_OUT_OF_MEMORY;
    int is_there = begin_texts(&w, words, words_len) & begin_texts(&t, texts, texts_len);
    if (is_there) code = proved_evaluate(w.at, words_len, t.at, texts_len, &made, OR(fault, &own));
    else out_of_memory(OR(fault, &own));
    end_texts(&w);
    end_texts(&t);
    if (code == SMAP_OK) *out = made.at;
    return code;
}

/* ---- building ---- */

uint32_t smap_builder_new(smap_builder **out, smap_fault *fault) {
    smap_fault own;
    proved_handle made = { NULL };
    uint32_t code = proved_builder_new(&made, OR(fault, &own));
    if (code == SMAP_OK) *out = made.at;
    return code;
}

uint32_t smap_builder_add_name(smap_builder *builder, const char *name, size_t name_len, uint32_t *id, smap_fault *fault) {
    smap_fault own;
    uint32_t none;
    return proved_builder_add_name(HANDLE(builder), OR(name, ""), name_len, OR(id, &none), OR(fault, &own));
}

uint32_t smap_builder_add_source_and_content(smap_builder *builder, const char *path, size_t path_len, const char *content,
                                             size_t content_len, uint32_t *id, smap_fault *fault) {
    smap_fault own;
    uint32_t none;
    return proved_builder_add_source_and_content(HANDLE(builder), OR(path, ""), path_len, OR(content, ""), content_len,
                                                 OR(id, &none), OR(fault, &own));
}

uint32_t smap_builder_add_source(smap_builder *builder, const char *path, size_t path_len, uint32_t *id, smap_fault *fault) {
    smap_fault own;
    uint32_t none;
    return proved_builder_add_source(HANDLE(builder), OR(path, ""), path_len, OR(id, &none), OR(fault, &own));
}

uint32_t smap_builder_add_tokens(smap_builder *builder, const smap_token *tokens, size_t tokens_len, smap_fault *fault) {
    smap_fault own;
    return proved_builder_add_tokens(HANDLE(builder), OR(tokens, &no_token), tokens_len, OR(fault, &own));
}

uint32_t smap_builder_set_file(smap_builder *builder, const char *file, size_t file_len, smap_fault *fault) {
    smap_fault own;
    return proved_builder_set_file(HANDLE(builder), OR(file, ""), file_len, OR(fault, &own));
}

uint32_t smap_builder_finish(smap_builder *builder, smap_map **out, smap_fault *fault) {
    smap_fault own;
    proved_handle made = { NULL };
    uint32_t code = proved_builder_finish(HANDLE(builder), &made, OR(fault, &own));
    if (code == SMAP_OK) *out = made.at;
    return code;
}

void smap_free_builder(smap_builder *builder) {
    if (builder) proved_free_builder(HANDLE(builder));
}

/* ---- writing, and texts ---- */

uint32_t smap_to_json_string(const smap_map *map, smap_string **out, smap_fault *fault) {
    smap_fault own;
    proved_handle made = { NULL };
    uint32_t code = proved_to_json_string(LENT(map), &made, OR(fault, &own));
    if (code == SMAP_OK) *out = made.at;
    return code;
}

uint32_t smap_to_data_url(const smap_map *map, smap_string **out, smap_fault *fault) {
    smap_fault own;
    proved_handle made = { NULL };
    uint32_t code = proved_to_data_url(LENT(map), &made, OR(fault, &own));
    if (code == SMAP_OK) *out = made.at;
    return code;
}

uint32_t smap_get_mappings(const smap_map *map, smap_string **out, smap_fault *fault) {
    smap_fault own;
    proved_handle made = { NULL };
    uint32_t code = proved_get_mappings(LENT(map), &made, OR(fault, &own));
    if (code == SMAP_OK) *out = made.at;
    return code;
}

uint32_t smap_encode_mappings(const smap_token *tokens, size_t tokens_len, smap_string **out, smap_fault *fault) {
    smap_fault own;
    proved_handle made = { NULL };
    uint32_t code = proved_encode_mappings(OR(tokens, &no_token), tokens_len, &made, OR(fault, &own));
    if (code == SMAP_OK) *out = made.at;
    return code;
}

uint32_t smap_to_json_string_within(const smap_map *map, size_t limit, smap_string **out, smap_fault *fault) {
    smap_fault own;
    proved_handle made = { NULL };
    uint32_t code = proved_to_json_string_within(LENT(map), limit, &made, OR(fault, &own));
    if (code == SMAP_OK) *out = made.at;
    return code;
}

uint32_t smap_to_data_url_within(const smap_map *map, size_t limit, smap_string **out, smap_fault *fault) {
    smap_fault own;
    proved_handle made = { NULL };
    uint32_t code = proved_to_data_url_within(LENT(map), limit, &made, OR(fault, &own));
    if (code == SMAP_OK) *out = made.at;
    return code;
}

uint32_t smap_get_mappings_within(const smap_map *map, size_t limit, smap_string **out, smap_fault *fault) {
    smap_fault own;
    proved_handle made = { NULL };
    uint32_t code = proved_get_mappings_within(LENT(map), limit, &made, OR(fault, &own));
    if (code == SMAP_OK) *out = made.at;
    return code;
}

uint32_t smap_encode_mappings_within(const smap_token *tokens, size_t tokens_len, size_t limit, smap_string **out, smap_fault *fault) {
    smap_fault own;
    proved_handle made = { NULL };
    uint32_t code = proved_encode_mappings_within(OR(tokens, &no_token), tokens_len, limit, &made, OR(fault, &own));
    if (code == SMAP_OK) *out = made.at;
    return code;
}

uint32_t smap_decode_mappings(const char *mappings, size_t mappings_len, size_t names, size_t sources, smap_map **out,
                              smap_fault *fault) {
    smap_fault own;
    proved_handle made = { NULL };
    uint32_t code = proved_decode_mappings(OR(mappings, ""), mappings_len, names, sources, &made, OR(fault, &own));
    if (code == SMAP_OK) *out = made.at;
    return code;
}

uint32_t smap_visualize(const smap_map *map, const char *code, size_t code_len, smap_string **out, smap_fault *fault) {
    smap_fault own;
    proved_handle made = { NULL };
    uint32_t answer = proved_visualize(LENT(map), OR(code, ""), code_len, &made, OR(fault, &own));
    if (answer == SMAP_OK) *out = made.at;
    return answer;
}

uint32_t smap_visualizer_url(const smap_map *map, const char *code, size_t code_len, smap_string **out, smap_fault *fault) {
    smap_fault own;
    proved_handle made = { NULL };
    uint32_t answer = proved_visualizer_url(LENT(map), OR(code, ""), code_len, &made, OR(fault, &own));
    if (answer == SMAP_OK) *out = made.at;
    return answer;
}

uint32_t smap_get_text(const smap_string *string, smap_text *out) {
    return proved_get_text(LOAN(string), out);
}

void smap_free_string(smap_string *string) {
    if (string) proved_free_string(HANDLE(string));
}

uint32_t smap_source_mapping_url(const char *code, size_t code_len, uint32_t language, smap_text *out, smap_fault *fault) {
    smap_fault own;
    return proved_source_mapping_url(OR(code, ""), code_len, language, out, OR(fault, &own));
}

uint32_t smap_decode_data_url(const char *url, size_t url_len, smap_string **out, smap_fault *fault) {
    smap_fault own;
    proved_handle made = { NULL };
    uint32_t code = proved_decode_data_url(OR(url, ""), url_len, &made, OR(fault, &own));
    if (code == SMAP_OK) *out = made.at;
    return code;
}

/* ---- errors ---- */

/* Writes as much of a text as fits, and returns its length. */
static size_t write_text(const char *text, char *out, size_t out_len) {
    size_t len = strlen(text);
    memcpy(out, text, len < out_len ? len : out_len);
    return len;
}

static size_t file_message(const smap_fault *fault, char *out, size_t out_len) {
    char room[128];
    if (fault->detail == 0) return write_text("It is no plain file", out, out_len);
    return write_text(words_of((int)fault->detail, room, sizeof room), out, out_len);
}

size_t smap_message(const smap_fault *fault, char *out, size_t out_len) {
    char none;
    if (fault->code == SMAP_NO_FILE) return file_message(fault, OR(out, &none), out_len);
    return proved_message(fault, OR(out, &none), out_len);
}

size_t smap_place_message(const smap_fault *fault, char *out, size_t out_len) {
    char none;
    return proved_place_message(fault, OR(out, &none), out_len);
}

size_t smap_reason_message(const char *text, size_t text_len, const smap_fault *fault, char *out, size_t out_len) {
    char none;
    return proved_reason_message(OR(text, ""), text_len, fault, OR(out, &none), out_len);
}

#define NAMED(code) \
    case code: return #code
const char *smap_code_name(uint32_t code) {
    switch (code) {
        NAMED(SMAP_OK); NAMED(SMAP_VLQ_LEFTOVER); NAMED(SMAP_VLQ_NO_VALUES); NAMED(SMAP_VLQ_OVERFLOW);
        NAMED(SMAP_JSON_READING); NAMED(SMAP_JSON_SHAPE); NAMED(SMAP_JSON_VERSION); NAMED(SMAP_BAD_SEGMENT_SIZE);
        NAMED(SMAP_BAD_SOURCE_REFERENCE); NAMED(SMAP_BAD_NAME_REFERENCE); NAMED(SMAP_OUT_OF_MEMORY); NAMED(SMAP_TOO_LARGE);
        NAMED(SMAP_LINE_ORDER); NAMED(SMAP_BAD_CHUNKS); NAMED(SMAP_SEVERAL_SOURCES); NAMED(SMAP_UNSORTED);
        NAMED(SMAP_TOO_DEEP); NAMED(SMAP_WORDS); NAMED(SMAP_NO_TEXT); NAMED(SMAP_SECTION_ORDER);
        NAMED(SMAP_INPUT_LINE_ORDER); NAMED(SMAP_BAD_BASE64); NAMED(SMAP_BAD_DATA_UTF8); NAMED(SMAP_NOT_COMPILED);
        NAMED(SMAP_COMPILED_VERSION); NAMED(SMAP_COMPILED_LENGTH); NAMED(SMAP_COMPILED_SIZES); NAMED(SMAP_BAD_SCOPES);
        NAMED(SMAP_SCOPES_NOT_TEXT); NAMED(SMAP_SCOPES_INDEXED); NAMED(SMAP_NULL_HANDLE); NAMED(SMAP_NOT_UTF8);
        NAMED(SMAP_LENGTHS); NAMED(SMAP_NO_ENTRY); NAMED(SMAP_NO_INDEX); NAMED(SMAP_BAD_OPTION); NAMED(SMAP_NO_FILE);
        NAMED(SMAP_SHARED); NAMED(SMAP_NOT_SHARED);
        default: return "SMAP_UNKNOWN";
    }
}

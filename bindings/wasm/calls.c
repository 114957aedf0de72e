/* What the loader calls beside the functions of oxc_sourcemap.h: lookups whose answers are words alone, lists of texts as bytes and lengths,
 * compiled maps with their bytes, and a map as one block of bytes, by which it moves from one instance of the module to another. */
#include "oxc_sourcemap.h"

#include <stddef.h>
#include <stdlib.h>
#include <string.h>

/* Stands for a text that is not known, or not there. */
#define NOT_TOLD UINT32_MAX

/* Where calls put their results. */
static struct answers {
    smap_fault fault;
    uint32_t words[16];
    void *made;
    void *other;
    smap_text text;
    size_t count;
} answers;

/* Where loader/layout.js has them. */
#define AT(field, bytes) _Static_assert(offsetof(struct answers, field) == (bytes), #field)
AT(fault, 0);
AT(words, 72);
AT(made, 136);
AT(other, 144);
AT(text, 152);
AT(count, 168);
#undef AT

void *loader_answers(void);
void *loader_answers(void) { return &answers; }

/* How many bytes of the heap are in use (heap.c). */
size_t heap_used(void);

size_t loader_used(void);
size_t loader_used(void) { return heap_used(); }

/* ---- lookups ---- */

/* Lookups at once: their answers take 8 KiB of stack. */
enum { WORDS = 8, BLOCK = 128 };

uint32_t loader_trace(const smap_map *map, uint32_t line, uint32_t column, uint32_t bias);
uint32_t loader_trace(const smap_map *map, uint32_t line, uint32_t column, uint32_t bias) {
    smap_original found;
    uint32_t code = smap_trace(map, line, column, bias, &found, &answers.fault);
    if (code == SMAP_OK) memcpy(answers.words, &found, 4 * WORDS);
    return code;
}

uint32_t loader_trace_all(const smap_map *map, const smap_position *positions, size_t count, uint32_t bias, uint32_t *out);
uint32_t loader_trace_all(const smap_map *map, const smap_position *positions, size_t count, uint32_t bias, uint32_t *out) {
    smap_original found[BLOCK];
    size_t done = 0;
    do {
        size_t len = count - done < BLOCK ? count - done : BLOCK;
        uint32_t code = smap_trace_all(map, positions + done, len, bias, found, len, &answers.fault);
        if (code != SMAP_OK) return code;
        for (size_t i = 0; i < len; i++) memcpy(out + WORDS * (done + i), &found[i], 4 * WORDS);
        done += len;
    } while (done < count);
    return SMAP_OK;
}

uint32_t loader_pieces(const smap_map *map, uint32_t line, uint32_t column, uint32_t end_line, uint32_t end_column, smap_piece *out, size_t len);
uint32_t loader_pieces(const smap_map *map, uint32_t line, uint32_t column, uint32_t end_line, uint32_t end_column, smap_piece *out, size_t len) {
    smap_position begin = { line, column };
    smap_position end = { end_line, end_column };
    return smap_pieces(map, begin, end, out, len, &answers.count);
}

/* ---- compiled maps ---- */

/* A compiled map, and its bytes behind it: one block, which the loader has made. */
typedef struct opened {
    smap_compiled *map;
    size_t len;
} opened;

/* Where loader/compiled.js puts the bytes. */
_Static_assert(sizeof(opened) == 16, "opened");

/* The code of a call that reports no more of its fault. */
static uint32_t told(uint32_t code) {
    static const smap_fault none;
    if (code == SMAP_OK) return code;
    answers.fault = none;
    return answers.fault.code = code;
}

/* The length of the text in two words; the stamp may be null. */
uint32_t loader_compile(const smap_map *map, uint32_t low, uint32_t high, const unsigned char *stamp);
uint32_t loader_compile(const smap_map *map, uint32_t low, uint32_t high, const unsigned char *stamp) {
    smap_string *made = NULL;
    uint32_t code = smap_compile(map, low | (uint64_t)high << 32, stamp, &made, &answers.fault);
    answers.made = made;
    return code;
}

/* Opens a block of so many bytes of a map. */
uint32_t loader_open_compiled(opened *it, size_t len);
uint32_t loader_open_compiled(opened *it, size_t len) {
    it->len = len;
    return smap_open_compiled((const unsigned char *)(it + 1), len, &it->map, &answers.fault);
}

void loader_free_compiled(opened *it);
void loader_free_compiled(opened *it) {
    smap_free_compiled(it->map);
    free(it);
}

uint32_t loader_compiled_counts(const opened *it);
uint32_t loader_compiled_counts(const opened *it) { return told(smap_compiled_get_counts(it->map, (smap_compiled_counts *)answers.words)); }

uint32_t loader_compiled_trace(const opened *it, uint32_t line, uint32_t column, uint32_t bias);
uint32_t loader_compiled_trace(const opened *it, uint32_t line, uint32_t column, uint32_t bias) {
    smap_original found;
    uint32_t code = told(smap_compiled_trace(it->map, line, column, bias, &found));
    if (code == SMAP_OK) memcpy(answers.words, &found, 4 * WORDS);
    return code;
}

uint32_t loader_compiled_trace_all(const opened *it, const smap_position *positions, size_t count, uint32_t bias, uint32_t *out);
uint32_t loader_compiled_trace_all(const opened *it, const smap_position *positions, size_t count, uint32_t bias, uint32_t *out) {
    smap_original found[BLOCK];
    size_t done = 0;
    do {
        size_t len = count - done < BLOCK ? count - done : BLOCK;
        uint32_t code = told(smap_compiled_trace_all(it->map, positions + done, len, bias, found, len));
        if (code != SMAP_OK) return code;
        for (size_t i = 0; i < len; i++) memcpy(out + WORDS * (done + i), &found[i], 4 * WORDS);
        done += len;
    } while (done < count);
    return SMAP_OK;
}

uint32_t loader_compiled_find_all(const opened *it, const smap_position *positions, size_t count, uint32_t bias, uint32_t *out);
uint32_t loader_compiled_find_all(const opened *it, const smap_position *positions, size_t count, uint32_t bias, uint32_t *out) {
    return told(smap_compiled_find_all(it->map, positions, count, bias, out, count));
}

uint32_t loader_compiled_token(const opened *it, uint32_t index);
uint32_t loader_compiled_token(const opened *it, uint32_t index) { return told(smap_compiled_get_token(it->map, index, (smap_token *)answers.words)); }

uint32_t loader_compiled_text(const opened *it, uint32_t kind, uint32_t id);
uint32_t loader_compiled_text(const opened *it, uint32_t kind, uint32_t id) { return told(smap_compiled_get_text(it->map, kind, id, &answers.text)); }

uint32_t loader_compiled_stamp(const opened *it);
uint32_t loader_compiled_stamp(const opened *it) { return told(smap_compiled_get_stamp(it->map, &answers.text)); }

uint32_t loader_compiled_is_ignored(const opened *it, uint32_t id);
uint32_t loader_compiled_is_ignored(const opened *it, uint32_t id) { return told(smap_compiled_is_ignored(it->map, id, answers.words)); }

uint32_t loader_decompile(const opened *it);
uint32_t loader_decompile(const opened *it) {
    smap_map *made = NULL;
    uint32_t code = smap_decompile(it->map, &made, &answers.fault);
    answers.made = made;
    return code;
}

/* ---- lists of texts ---- */

/* Texts of the bytes of all and the length of each; null if there is no memory. */
smap_text *loader_texts(const char *bytes, const uint32_t *lengths, size_t count);
smap_text *loader_texts(const char *bytes, const uint32_t *lengths, size_t count) {
    smap_text *out = calloc(count + 1, sizeof *out);
    for (size_t i = 0; out && i < count; i++) {
        if (lengths[i] == NOT_TOLD) continue;
        out[i].at = bytes;
        out[i].len = lengths[i];
        bytes += lengths[i];
    }
    return out;
}

/* ---- a map as bytes ---- */

/* A packed map is its parts one after the other; each list begins with how many entries it has. */
enum { NAMES, SOURCES, CONTENTS, LISTS };

typedef uint32_t Lists(const smap_map *, smap_text *, size_t, size_t *);
typedef uint32_t Gets(const smap_map *, smap_text *);

/* The texts of a map: three lists, and three that may not be there. */
typedef struct parts {
    smap_text *lists[LISTS];
    size_t counts[LISTS];
    smap_text file, root, id;
} parts;

static smap_text *list_of(const smap_map *map, int which, size_t *count) {
    size_t len = *count;
    smap_text *out = calloc(len + 1, sizeof *out);
    if (!out) return NULL;
    if (which == NAMES) smap_get_names(map, out, len, count);
    else if (which == SOURCES) smap_get_sources(map, out, len, count);
    else smap_get_source_contents(map, out, len, count);
    return out;
}

static void get_parts(const smap_map *map, parts *it) {
    smap_counts counts;
    static const parts none;
    *it = none;
    smap_get_counts(map, &counts);
    it->counts[NAMES] = counts.names;
    it->counts[SOURCES] = counts.sources;
    it->counts[CONTENTS] = counts.source_contents;
    for (int i = 0; i < LISTS; i++) it->lists[i] = list_of(map, i, &it->counts[i]);
    smap_get_file(map, &it->file);
    smap_get_source_root(map, &it->root);
    smap_get_debug_id(map, &it->id);
}

static void free_parts(parts *it) {
    for (int i = 0; i < LISTS; i++) free(it->lists[i]);
}

/* Writes where there is room, and counts in any case. */
typedef struct writer {
    char *at; /* null if it counts */
    size_t len;
} writer;

static void put(writer *to, const void *from, size_t len) {
    if (to->at && len) memcpy(to->at + to->len, from, len);
    to->len += len;
}

static void put_word(writer *to, size_t word) {
    uint32_t it = (uint32_t)word;
    put(to, &it, 4);
}

static void put_text(writer *to, const smap_text *text) {
    put_word(to, text->at ? text->len : NOT_TOLD);
    if (text->at) put(to, text->at, text->len);
}

static void put_list(writer *to, const smap_text *list, size_t count) {
    put_word(to, count);
    for (size_t i = 0; i < count; i++) put_text(to, &list[i]);
}

static void put_tokens(writer *to, const smap_map *map) {
    size_t count = 0;
    smap_get_tokens(map, NULL, 0, &count);
    put_word(to, count);
    if (to->at) smap_get_tokens(map, (smap_token *)(to->at + to->len), count, &count);
    to->len += count * sizeof(smap_token);
}

static void put_ignored(writer *to, const smap_map *map) {
    size_t count = 0;
    uint32_t is_there = smap_get_ignore_list(map, NULL, 0, &count) == SMAP_OK;
    put_word(to, is_there ? count : NOT_TOLD);
    if (!is_there) return;
    if (to->at) smap_get_ignore_list(map, (uint32_t *)(to->at + to->len), count, &count);
    to->len += count * 4;
}

static void put_map(writer *to, const smap_map *map, const parts *it) {
    put_tokens(to, map);
    put_ignored(to, map);
    for (int i = 0; i < LISTS; i++) put_list(to, it->lists[i], it->counts[i]);
    put_text(to, &it->file);
    put_text(to, &it->root);
    put_text(to, &it->id);
}

/* A map as a block of bytes, whose length is answers.count; null if there is no memory. */
char *loader_pack(const smap_map *map);
char *loader_pack(const smap_map *map) {
    parts it;
    writer counts = { NULL, 0 };
    writer to = { NULL, 0 };
    get_parts(map, &it);
    if (it.lists[NAMES] && it.lists[SOURCES] && it.lists[CONTENTS]) {
        put_map(&counts, map, &it);
        to.at = malloc(counts.len + 1);
        if (to.at) put_map(&to, map, &it);
    }
    answers.count = to.len;
    free_parts(&it);
    return to.at;
}

static uint32_t take_word(const char **from) {
    uint32_t it;
    memcpy(&it, *from, 4);
    *from += 4;
    return it;
}

static smap_text take_text(const char **from) {
    uint32_t len = take_word(from);
    smap_text out = { len == NOT_TOLD ? NULL : *from, len == NOT_TOLD ? 0 : len };
    *from += out.len;
    return out;
}

static smap_text *take_list(const char **from, size_t *count) {
    *count = take_word(from);
    smap_text *out = calloc(*count + 1, sizeof *out);
    for (size_t i = 0; out && i < *count; i++) out[i] = take_text(from);
    return out;
}

/* Entries of this many bytes, which are not copied, and how many there are. */
static const void *take_entries(const char **from, size_t bytes, uint32_t *count) {
    *count = take_word(from);
    const char *at = *from;
    if (*count != NOT_TOLD) *from += *count * bytes;
    return at;
}

/* Tokens alone, whose ids may be out of range: only a builder takes them. */
static uint32_t make_tokens(const smap_token *tokens, size_t count, smap_map **out) {
    smap_builder *builder = NULL;
    uint32_t code = smap_builder_new(&builder, &answers.fault);
    if (code == SMAP_OK) code = smap_builder_add_tokens(builder, tokens, count, &answers.fault);
    if (code == SMAP_OK) code = smap_builder_finish(builder, out, &answers.fault);
    smap_free_builder(builder);
    return code;
}

static uint32_t make_lists(const parts *it, smap_map **out) {
    return smap_from_tokens(NULL, 0, it->lists[NAMES], it->counts[NAMES], it->lists[SOURCES], it->counts[SOURCES],
                            it->lists[CONTENTS], it->counts[CONTENTS], NULL, 0, out, &answers.fault);
}

/* A map with ids out of range: the join of its tokens, whose ids stay as they are, and of its lists. A join may pad the contents. */
static uint32_t join_both(const smap_token *tokens, size_t count, const parts *it, smap_map **out) {
    smap_map *both[2] = { NULL, NULL };
    static const smap_position begins[2];
    uint32_t code = make_tokens(tokens, count, &both[0]);
    if (code == SMAP_OK) code = make_lists(it, &both[1]);
    if (code == SMAP_OK) code = smap_join_all((const smap_map *const *)both, 2, begins, 2, out, &answers.fault);
    if (code == SMAP_OK) code = smap_set_source_contents(*out, it->lists[CONTENTS], it->counts[CONTENTS], &answers.fault);
    smap_free_map(both[0]);
    smap_free_map(both[1]);
    return code;
}

static uint32_t set_rest(smap_map *map, const parts *it, const uint32_t *ignored, uint32_t count) {
    uint32_t code = SMAP_OK;
    if (count != NOT_TOLD) code = smap_set_ignore_list(map, ignored, count, &answers.fault);
    if (code == SMAP_OK && it->file.at) code = smap_set_file(map, it->file.at, it->file.len, &answers.fault);
    if (code == SMAP_OK && it->root.at) code = smap_set_source_root(map, it->root.at, it->root.len, &answers.fault);
    if (code == SMAP_OK && it->id.at) code = smap_set_debug_id(map, it->id.at, it->id.len, &answers.fault);
    return code;
}

/* The tokens and the lists of a map. */
static uint32_t make(const smap_token *tokens, size_t count, const parts *it, smap_map **out) {
    const smap_text *names = it->lists[NAMES], *sources = it->lists[SOURCES], *contents = it->lists[CONTENTS];
    if (!names || !sources || !contents) return SMAP_OUT_OF_MEMORY;
    uint32_t code = smap_from_tokens(tokens, count, names, it->counts[NAMES], sources, it->counts[SOURCES], contents,
                                     it->counts[CONTENTS], NULL, 0, out, &answers.fault);
    if (code != SMAP_BAD_SOURCE_REFERENCE && code != SMAP_BAD_NAME_REFERENCE) return code;
    return join_both(tokens, count, it, out);
}

/* Makes the map of a packed one, which is at a multiple of 4, in answers.made. */
uint32_t loader_unpack(const char *from);
uint32_t loader_unpack(const char *from) {
    parts it;
    smap_map *out = NULL;
    uint32_t tokens_len, ignored_len;
    const smap_token *tokens = take_entries(&from, sizeof *tokens, &tokens_len);
    const uint32_t *ignored = take_entries(&from, sizeof *ignored, &ignored_len);
    for (int i = 0; i < LISTS; i++) it.lists[i] = take_list(&from, &it.counts[i]);
    it.file = take_text(&from);
    it.root = take_text(&from);
    it.id = take_text(&from);
    uint32_t code = make(tokens, tokens_len, &it, &out);
    if (code == SMAP_OK) code = set_rest(out, &it, ignored, ignored_len);
    if (code != SMAP_OK) {
        smap_free_map(out);
        out = NULL;
    }
    free_parts(&it);
    answers.made = out;
    return code;
}

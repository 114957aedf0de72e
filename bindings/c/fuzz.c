/* Reads maps that are changed at random, and makes every call on what is read, with buffers that end where memory ends.
 *
 *   fuzz ROUNDS SEED FILE..
 *
 * Each round takes the text of a FILE, changes some of it, and reads it. A buffer is as large as the call is told, and behind it is a page
 * that cannot be touched, since the library is not built with a sanitizer; the layer and this program are (address, undefined). It checks
 * what holds of every map: what is written is read back as the same, lists agree with lookups, each error has a message. It ends with
 * status 1 at the first round that breaks one of these, and says which; `fuzz 1 SEED` with the seed that it names does that round again. */
#define _DEFAULT_SOURCE
#include "oxc_sourcemap.h"

#include <stdio.h>
#include <stdlib.h>
#include <string.h>
#include <sys/mman.h>

static uint64_t state, seed;
static unsigned long read_maps, refused_maps, damaged_bytes, damaged_maps, taken_apart, read_scopes, refused_scopes, read_variables, read_values;

#define MUST(condition) must(condition, __LINE__, #condition)
static void must(int is_so, int line, const char *condition) {
    if (is_so) return;
    printf("fuzz.c:%d: %s; fuzz 1 %llu\n", line, condition, (unsigned long long)seed);
    exit(1);
}

/* A number below n (splitmix64). */
static size_t below(size_t n) {
    uint64_t z = state += 0x9e3779b97f4a7c15;
    z = (z ^ z >> 30) * 0xbf58476d1ce4e5b9;
    z = (z ^ z >> 27) * 0x94d049bb133111eb;
    return n ? (size_t)((z ^ z >> 31) % n) : 0;
}

/* ---- buffers ---- */

#define ROOM (1u << 22)
#define PAGE 4096u

/* The buffers in use at once: texts, outputs, a second output, messages, a compiled map. */
enum { INPUT, OUT, OUT_TOO, WORDS, COMPILED, BUFFERS };

/* A buffer of this size in front of a page that cannot be touched. It begins with bytes that no call wrote. */
static void *exact(int which, size_t size) {
    static char *ends[BUFFERS];
    if (!ends[which]) {
        char *at = mmap(NULL, ROOM + PAGE, PROT_READ | PROT_WRITE, MAP_PRIVATE | MAP_ANONYMOUS, -1, 0);
        MUST(at != MAP_FAILED && mprotect(at + ROOM, PAGE, PROT_NONE) == 0);
        ends[which] = at + ROOM;
    }
    MUST(size <= ROOM);
    return memset(ends[which] - size, 0xa5, size);
}

static char *copied(const char *at, size_t len) {
    return memcpy(exact(INPUT, len), at, len);
}

/* ---- texts at random ---- */

typedef struct buffer {
    char *at;
    size_t len;
} buffer;

static buffer *files;
static size_t files_len;

#define MOST 200000

static void replace(buffer *it, size_t at, size_t len, const char *with, size_t with_len) {
    if (at > it->len || len > it->len - at || it->len - len + with_len > MOST) return;
    memmove(it->at + at + with_len, it->at + at + len, it->len - at - len);
    memcpy(it->at + at, with, with_len);
    it->len += with_len - len;
}

static const char *const PIECES[] = {
    "0", "-1", "4294967295", "4294967296", "1e99", "3.0", "null", "true", "\"\"", "[]", "{}", ",", ";", ";;;;", "\"", "\\",
        "\\ud800",
    "\\u0000", "\xff", "\xc3\xa9", "\xf0\x9f\x98\x80", "\xef\xbb\xbf", ")]}'\n", "AAAA", "+/////H", "+/////HAAAA", "D", "gggggggg",
        "AAAAA",
    "\"version\":3,", "\"sources\":null,", "\"sections\":[", "\"ignoreList\":[0,7],", "\"x_google_ignoreList\":[1],",
        "\"names\":[\"x\"],",
    "\"sourcesContent\":[null,\"x\"],", "\"mappings\":\"", "{\"offset\":{\"line\":0,\"column\":0},\"map\":",
        "data:application/json,",
};

static void mutate(buffer *it) {
    const buffer *other = &files[below(files_len)];
    size_t at = below(it->len + 1), len = below(below(4) ? 8 : 200), from = below(other->len);
    const char *piece = PIECES[below(sizeof PIECES / sizeof *PIECES)];
    char byte = (char)below(256);
    switch (below(8)) {
        case 0: replace(it, at, 1, &byte, 1); break;
        case 1: replace(it, at, len, "", 0); break;
        case 2: replace(it, at, below(2), piece, strlen(piece)); break;
        case 3: replace(it, at, len, other->at + from, len < other->len - from ? len : other->len - from); break;
        case 4: byte = "ABCDEFGHIJKLMNOPQRSTUVWXYZabcdefghijklmnopqrstuvwxyz0123456789+/,;"[below(66)]; replace(it, at, 1, &byte,
            1); break;
        case 5: byte = "{}[]\":, 0123456789"[below(18)]; replace(it, at, below(2), &byte, 1); break;
        case 6: if (!below(8)) it->len = at; break;
        default: byte = ",;"[below(2)]; replace(it, at, 0, &byte, 1); break;
    }
}

/* ---- calls ---- */

/* Checks a fault, and its messages. */
static void told(uint32_t code, const smap_fault *fault) {
    MUST(fault->code == code && strcmp(smap_code_name(code), "SMAP_UNKNOWN") != 0);
    size_t len = smap_message(fault, NULL, 0), place = smap_place_message(fault, NULL, 0);
    MUST((len == 0) == (code == SMAP_OK) && (place == 0) == (fault->place.kind == SMAP_PLACE_NONE));
    MUST(smap_message(fault, exact(WORDS, len), len) == len);
    MUST(smap_message(fault, exact(WORDS, len / 2), len / 2) == len);
    MUST(smap_place_message(fault, exact(WORDS, place), place) == place);
}

static smap_position any_position(const smap_counts *counts) {
    static const uint32_t FAR[4] = { 0, 1, UINT32_MAX - 1, UINT32_MAX };
    smap_position it;
    it.line = below(8) ? (uint32_t)below(counts->lines + 2) : FAR[below(4)];
    it.column = below(8) ? (uint32_t)below(300) : FAR[below(4)];
    return it;
}

/* The tokens of a map, in a buffer. */
static smap_token *all_tokens(const smap_map *map, const smap_counts *counts) {
    size_t count;
    smap_token *tokens = exact(OUT_TOO, counts->tokens * sizeof *tokens);
    MUST(smap_get_tokens(map, tokens, counts->tokens, &count) == SMAP_OK && count == counts->tokens);
    return tokens;
}

static void read_lists(const smap_map *map, const smap_counts *counts) {
    smap_text one;
    smap_token token;
    size_t count, few = below(3);
    smap_text *texts = exact(OUT, counts->names * sizeof *texts);
    MUST(smap_get_names(map, texts, counts->names, &count) == SMAP_OK && count == counts->names);
    uint32_t id = (uint32_t)below(count + 1), code = smap_get_name(map, id, &one);
    MUST(code == (id < count ? SMAP_OK : SMAP_NO_ENTRY) && (code || (one.at == texts[id].at && one.len == texts[id].len)));
    texts = exact(OUT, counts->sources * sizeof *texts);
    MUST(smap_get_sources(map, texts, counts->sources, &count) == SMAP_OK && count == counts->sources);
    id = (uint32_t)below(count + 1), code = smap_get_source(map, id, &one);
    MUST(code == (id < count ? SMAP_OK : SMAP_NO_ENTRY) && (code || (one.at == texts[id].at && one.len == texts[id].len)));
    texts = exact(OUT, counts->source_contents * sizeof *texts);
    MUST(smap_get_source_contents(map, texts, counts->source_contents, &count) == SMAP_OK && count == counts->source_contents);
    id = (uint32_t)below(count + 1), code = smap_get_source_content(map, id, &one);
    MUST((code == SMAP_OK) == (id < count && texts[id].at != NULL));
    code = smap_get_ignore_list(map, exact(OUT, 4 * counts->ignore_list), counts->ignore_list, &count);
    MUST(code == SMAP_OK ? count == counts->ignore_list : code == SMAP_NO_ENTRY && counts->ignore_list == 0);
    smap_token *tokens = all_tokens(map, counts);
    id = (uint32_t)below(counts->tokens + 1), code = smap_get_token(map, id, &token);
    MUST(code == (id < counts->tokens ? SMAP_OK : SMAP_NO_ENTRY) && (code || memcmp(&token, &tokens[id], sizeof token) == 0));
    MUST(smap_get_tokens(map, exact(OUT, few * sizeof token), few, &count) == SMAP_OK && count == counts->tokens);
    smap_get_file(map, &one);
    smap_get_source_root(map, &one);
    smap_get_debug_id(map, &one);
}

static void look_up(const smap_map *map, const smap_counts *counts, uint32_t is_sorted) {
    size_t len = below(20), count;
    uint32_t bias = (uint32_t)below(3);
    smap_fault fault;
    smap_original one;
    smap_position *positions = exact(INPUT, len * sizeof *positions);
    for (size_t i = 0; i < len; i++) positions[i] = any_position(counts);
    smap_original *all = exact(OUT, len * sizeof *all);
    uint32_t code = smap_trace_all(map, positions, len, bias, all, len, &fault), *found = exact(OUT_TOO, len * sizeof *found);
    told(code, &fault);
    MUST(code == SMAP_OK || (code == SMAP_LINE_ORDER && !is_sorted));
    MUST(smap_find_all(map, positions, len, bias, found, len, NULL) == code);
    for (size_t i = 0; i < len && !code; i++) {
        MUST(found[i] == all[i].index && (found[i] == SMAP_NO_ID) == (all[i].kind == SMAP_NOTHING));
        MUST(smap_trace(map, positions[i].line, positions[i].column, bias, &one, NULL) == SMAP_OK && one.index == found[i]);
    }
    smap_position begin = any_position(counts), end = any_position(counts), first;
    if (!is_sorted) return;
    MUST(smap_pieces(map, begin, end, NULL, 0, &count) == SMAP_OK && count <= counts->tokens + counts->lines + 4);
    smap_piece *pieces = exact(OUT, count * sizeof *pieces);
    MUST(smap_pieces(map, begin, end, pieces, count, &count) == SMAP_OK && (count == 0 || pieces[count - 1].end.line == end.line));
    MUST(smap_first_difference(map, map, &first) == SMAP_NO_ENTRY);
}

/* Original positions, of a map with an index. */
static void look_back(const smap_map *map, const smap_counts *counts) {
    size_t count;
    uint32_t index, direction = (uint32_t)below(4), source = (uint32_t)below(counts->sources + 1), line = (uint32_t)below(30),
        column = (uint32_t)below(90);
    smap_token token;
    smap_token *tokens = all_tokens(map, counts);
    if (counts->tokens && below(2)) {
        token = tokens[below(counts->tokens)];
        source = token.source_id, line = token.src_line, column = token.src_col;
    }
    MUST(smap_all_generated(map, source, line, column, direction, NULL, 0, &count) == SMAP_OK && count <= counts->tokens);
    uint32_t *out = exact(OUT, count * sizeof *out);
    MUST(smap_all_generated(map, source, line, column, direction, out, count, &count) == SMAP_OK);
    uint32_t code = smap_generated(map, source, line, column, direction, &index, &token);
    MUST(code == (count ? SMAP_OK : SMAP_NO_ENTRY) && (code || (index == out[0] &&
         memcmp(&token, &tokens[index], sizeof token) == 0)));
    for (size_t i = 0; i < count; i++) MUST(tokens[out[i]].source_id == source && tokens[out[i]].src_line == line);
}

/* Whether two maps have the same JSON text, or neither has one. */
static int is_same(const smap_map *map, const smap_map *other) {
    smap_string *a = NULL, *b = NULL;
    smap_text one = { NULL, 0 }, two = { NULL, 0 };
    uint32_t code = smap_to_json_string(map, &a, NULL);
    MUST(smap_to_json_string(other, &b, NULL) == code);
    if (!code) MUST(smap_get_text(a, &one) == SMAP_OK && smap_get_text(b, &two) == SMAP_OK);
    int is_so = one.len == two.len && (code || memcmp(one.at, two.at, one.len) == 0);
    smap_free_string(a);
    smap_free_string(b);
    return is_so;
}

/* Writes a map, and reads what was written. */
static void write_back(const smap_map *map, uint32_t is_sound) {
    smap_string *string = NULL;
    smap_text text;
    smap_fault fault;
    smap_map *read;
    uint32_t code = smap_to_json_string(map, &string, &fault);
    told(code, &fault);
    MUST(!is_sound || code == SMAP_OK);
    if (code || !is_sound) {
        smap_free_string(string);
        return;
    }
    MUST(smap_get_text(string, &text) == SMAP_OK);
    MUST(smap_from_json_string(copied(text.at, text.len), text.len, &read, NULL) == SMAP_OK && is_same(map, read));
    smap_free_map(read);
    MUST(smap_read_found(copied(text.at, text.len), text.len, &read, NULL, NULL) == SMAP_OK && is_same(map, read));
    smap_free_map(read);
    smap_free_string(string);
    MUST(smap_to_data_url(map, &string, NULL) == SMAP_OK && smap_get_text(string, &text) == SMAP_OK);
    MUST(smap_read_found(copied(text.at, text.len), text.len, &read, NULL, NULL) == SMAP_OK && is_same(map, read));
    smap_free_map(read);
    smap_free_string(string);
}

/* Writes the mappings alone, and a map beside a code. */
static void write_parts(const smap_map *map, const smap_counts *counts, const buffer *code) {
    smap_string *string = NULL, *again = NULL;
    smap_text text, other;
    smap_fault fault;
    smap_map *read;
    smap_token *tokens = all_tokens(map, counts);
    uint32_t answer = smap_get_mappings(map, &string, &fault);
    told(answer, &fault);
    MUST(smap_encode_mappings(tokens, counts->tokens, &again, NULL) == answer);
    if (!answer) {
        MUST(smap_get_text(string, &text) == SMAP_OK && smap_get_text(again, &other) == SMAP_OK && text.len == other.len);
        MUST(memcmp(text.at, other.at, text.len) == 0);
        answer = smap_decode_mappings(copied(text.at, text.len), text.len, counts->names, counts->sources, &read, &fault);
        told(answer, &fault);
        if (!answer) smap_free_map(read);
    }
    smap_free_string(string);
    smap_free_string(again);
    string = NULL;
    size_t len = below(code->len + 1);
    told(smap_visualize(map, copied(code->at, len), len, &string, &fault), &fault);
    smap_free_string(string);
    string = NULL;
    told(smap_visualizer_url(map, copied(code->at, len), len, &string, &fault), &fault);
    smap_free_string(string);
    answer = smap_source_mapping_url(copied(code->at, len), len, (uint32_t)below(3), &text, &fault);
    told(answer, &fault);
    string = NULL;
    told(smap_decode_data_url(copied(code->at, len), len, &string, &fault), &fault);
    smap_free_string(string);
}

/* ---- compiled maps ---- */

static int is_text(const smap_text *one, const smap_text *other) {
    return one->len == other->len && memcmp(one->at, other->at, one->len) == 0;
}

static int is_original(const smap_original *one, const smap_original *other) {
    return one->kind == other->kind && one->index == other->index && memcmp(&one->token, &other->token, sizeof one->token) == 0 &&
           is_text(&one->source, &other->source) && is_text(&one->name, &other->name);
}

/* A position at a token, or beside one; or any. */
static smap_position near_token(const smap_map *map, const smap_counts *counts) {
    smap_token token;
    smap_position it = any_position(counts);
    if (!below(4) || smap_get_token(map, (uint32_t)below(counts->tokens), &token)) return it;
    it.line = token.dst_line, it.column = token.dst_col + (uint32_t)below(3) - 1;
    return it;
}

/* What a compiled map says of positions is what its map says. */
static void look_up_compiled(const smap_map *map, const smap_compiled *compiled, const smap_counts *counts) {
    size_t len = below(20);
    uint32_t bias = (uint32_t)below(3), index = (uint32_t)below(counts->tokens + 1);
    smap_original one, wanted;
    smap_token token, wanted_token;
    smap_position *positions = exact(INPUT, len * sizeof *positions);
    for (size_t i = 0; i < len; i++) positions[i] = near_token(map, counts);
    smap_original *all = exact(OUT, len * sizeof *all);
    uint32_t *found = exact(OUT_TOO, len * sizeof *found);
    MUST(smap_compiled_trace_all(compiled, positions, len, bias, all, len) == SMAP_OK);
    MUST(smap_compiled_find_all(compiled, positions, len, bias, found, len) == SMAP_OK);
    for (size_t i = 0; i < len; i++) {
        MUST(smap_trace(map, positions[i].line, positions[i].column, bias, &wanted, NULL) == SMAP_OK);
        MUST(smap_compiled_trace(compiled, positions[i].line, positions[i].column, bias, &one) == SMAP_OK);
        MUST(is_original(&wanted, &one) && is_original(&wanted, &all[i]) && wanted.index == found[i]);
    }
    uint32_t code = smap_get_token(map, index, &wanted_token);
    MUST(smap_compiled_get_token(compiled, index, &token) == code && (code || memcmp(&token, &wanted_token, sizeof token) == 0));
}

/* A compiled map holds its map: counts, texts, and all when it comes back, but that it has then a content, or null, for each source.
 * (a map that is built may have 4294967295 lines, each a byte of its text) */
static void holds_map(const smap_map *map, const smap_compiled *compiled, const smap_counts *counts) {
    smap_text one, wanted;
    smap_map *back;
    smap_position first;
    smap_compiled_counts own;
    uint32_t id = (uint32_t)below(counts->names + 1), code = smap_get_name(map, id, &wanted);
    MUST(smap_compiled_get_text(compiled, SMAP_TEXT_NAME, id, &one) == code && (code || is_text(&one, &wanted)));
    id = (uint32_t)below(counts->sources), code = smap_get_source_content(map, id, &wanted);
    MUST(smap_compiled_get_text(compiled, SMAP_TEXT_SOURCE_CONTENT, id, &one) == (counts->sources ? code : SMAP_NO_ENTRY));
    MUST(code || !counts->sources || is_text(&one, &wanted));
    code = smap_get_file(map, &wanted);
    MUST(smap_compiled_get_text(compiled, SMAP_TEXT_FILE, id, &one) == code && (code || is_text(&one, &wanted)));
    MUST(smap_compiled_get_counts(compiled, &own) == SMAP_OK && own.tokens == counts->tokens && own.ignored == counts->ignore_list);
    MUST(smap_decompile(compiled, &back, NULL) == SMAP_OK && smap_first_difference(map, back, &first) == SMAP_NO_ENTRY);
    int has_one_each = counts->source_contents == 0 || counts->source_contents == counts->sources;
    MUST(!has_one_each || counts->lines > MOST || is_same(map, back));
    smap_free_map(back);
}

static int lies_in(const smap_text *text, const buffer *bytes) {
    size_t at = (size_t)((uintptr_t)text->at - (uintptr_t)bytes->at);
    return text->len == 0 || (at <= bytes->len && text->len <= bytes->len - at);
}

/* What is asked of bytes that may be damaged is answered, from within them. */
static void ask_damaged(const smap_compiled *compiled, const buffer *bytes) {
    smap_compiled_counts own;
    smap_counts most = { 0, 0, 0, 0, 0, 5, 0 };
    smap_original one;
    smap_text text;
    smap_token token;
    smap_map *back = NULL;
    smap_string *string = NULL;
    uint32_t flag, found;
    smap_fault fault;
    MUST(smap_compiled_get_counts(compiled, &own) == SMAP_OK);
    for (int i = 0; i < 30; i++) {
        smap_position at = any_position(&most);
        uint32_t bias = (uint32_t)below(3), id = (uint32_t)below(below(2) ? 4 : own.tokens + 1), kind = (uint32_t)below(7);
        MUST(smap_compiled_trace(compiled, at.line, at.column, bias, &one) == SMAP_OK);
        MUST(lies_in(&one.source, bytes) && lies_in(&one.name, bytes));
        MUST(one.kind == SMAP_NOTHING ? one.index == SMAP_NO_ID : one.token.dst_line == at.line && one.index < own.tokens);
        MUST(smap_compiled_find_all(compiled, &at, 1, bias, &found, 1) == SMAP_OK && found == one.index);
        if (!smap_compiled_get_text(compiled, kind, id, &text)) MUST(kind < 6 && lies_in(&text, bytes));
        if (!smap_compiled_get_token(compiled, id, &token)) MUST(id < own.tokens);
        MUST(smap_compiled_is_ignored(compiled, id, &flag) == SMAP_OK && flag < 2);
    }
    MUST(smap_compiled_get_stamp(compiled, &text) == SMAP_OK && text.len == 32 && lies_in(&text, bytes));
    uint32_t code = smap_decompile(compiled, &back, &fault);
    told(code, &fault);
    MUST(code == SMAP_OK || (code == SMAP_NO_ENTRY && back == NULL));
    if (!code) {
        smap_counts counts;
        taken_apart++;
        MUST(smap_get_counts(back, &counts) == SMAP_OK && counts.tokens <= own.tokens && counts.bytes <= 128 * bytes->len);
        told(smap_to_json_string_within(back, MOST, &string, &fault), &fault);
    }
    smap_free_string(string);
    smap_free_map(back);
}

/* Changes bytes of a compiled map, of its header above all, or cuts it; most have the length then that they say. */
static void damage(const smap_text *from) {
    buffer bytes;
    smap_compiled *compiled;
    smap_fault fault;
    bytes.len = below(4) ? from->len : below(from->len);
    bytes.at = memcpy(exact(COMPILED, bytes.len), from->at, bytes.len);
    for (size_t n = below(4); n && bytes.len; n--) {
        size_t at = below(bytes.len < 200 || below(2) ? bytes.len : 200);
        bytes.at[at] = (char)(below(2) ? below(256) : (size_t)(unsigned char)bytes.at[at] + below(3) - 1);
    }
    for (size_t i = 0; below(8) && i < 8 && bytes.len > 15; i++) bytes.at[8 + i] = (char)((uint64_t)bytes.len >> 8 * i);
    uint32_t code = smap_open_compiled(bytes.at, bytes.len, &compiled, &fault);
    told(code, &fault);
    damaged_bytes++;
    if (code) return;
    damaged_maps++;
    ask_damaged(compiled, &bytes);
    smap_free_compiled(compiled);
}

/* Compiles a map, and asks it, as it is and damaged. */
static void compile(const smap_map *map, const smap_counts *counts, uint32_t is_sorted) {
    smap_string *string = NULL;
    smap_compiled *compiled;
    smap_text text;
    smap_fault fault;
    uint32_t code = smap_compile(map, below(1000), NULL, &string, &fault);
    told(code, &fault);
    MUST(code == (is_sorted ? SMAP_OK : SMAP_UNSORTED));
    if (code) return;
    MUST(smap_get_text(string, &text) == SMAP_OK);
    const unsigned char *bytes = memcpy(exact(COMPILED, text.len), text.at, text.len);
    MUST(smap_open_compiled(bytes, text.len, &compiled, &fault) == SMAP_OK);
    look_up_compiled(map, compiled, counts);
    holds_map(map, compiled, counts);
    smap_free_compiled(compiled);
    for (int i = 0; i < 4; i++) damage(&text);
    smap_free_string(string);
}

/* The same for a map that was changed or built, whose ids may be out of range. */
static void compile_sorted(const smap_map *map) {
    smap_counts counts;
    MUST(smap_get_counts(map, &counts) == SMAP_OK);
    compile(map, &counts, 1);
}

/* Changes a map, by every call that does. */
static void change(smap_map *map, const smap_counts *counts, const buffer *text) {
    smap_fault fault;
    smap_text list[30];
    size_t len = below(30), text_len = below(text->len < 50 ? text->len : 50), count;
    uint32_t ids[4] = { (uint32_t)below(4), (uint32_t)below(4), UINT32_MAX, 0 }, is_so;
    const char *at = copied(text->at, text_len);
    for (size_t i = 0; i < len; i++) list[i].at = below(4) ? at : NULL, list[i].len = list[i].at ? below(text_len + 1) : 0;
    told(smap_set_file(map, at, text_len, &fault), &fault);
    told(smap_set_source_root(map, at, text_len, &fault), &fault);
    told(smap_set_debug_id(map, at, text_len, &fault), &fault);
    if (below(2)) told(smap_set_ignore_list(map, ids, below(5), &fault), &fault);
    if (below(2)) told(smap_set_sources(map, list, len, &fault), &fault);
    if (below(2)) told(smap_set_source_contents(map, list, len, &fault), &fault);
    told(smap_apply_source_root(map, &fault), &fault);
    MUST(smap_sort(map, NULL) == SMAP_OK && smap_is_sorted(map, &is_so) == SMAP_OK && is_so);
    MUST(smap_get_tokens(map, NULL, 0, &count) == SMAP_OK && count == counts->tokens);
    told(smap_simplify(map, &fault), &fault);
    MUST(smap_index_sources(map, NULL) == SMAP_OK);
    compile_sorted(map);
}

/* Makes maps of two. */
static void combine(const smap_map *map, const smap_map *other, const smap_counts *counts) {
    smap_fault fault;
    smap_map *out = NULL;
    const smap_map *maps[20];
    smap_position positions[20];
    smap_text paths[20];
    size_t len = below(20);
    for (size_t i = 0; i < len; i++) {
        maps[i] = below(2) ? map : other;
        positions[i] = any_position(counts);
        if (!below(4) || smap_get_source(map, (uint32_t)below(3), &paths[i])) paths[i].at = NULL, paths[i].len = 0;
    }
#define MADE(call) out = NULL, told(call, &fault), smap_free_map(out)
    MADE(smap_compose(map, other, &out, &fault));
    MADE(smap_compose(other, map, &out, &fault));
    MADE(smap_remap(map, paths, len, maps, len, &out, &fault));
    MADE(smap_join_all(maps, len, positions, len, &out, &fault));
    smap_join *join;
    MUST(smap_join_new(&join, NULL) == SMAP_OK);
    for (size_t i = 0; i < len; i++) told(smap_join_add(join, maps[i], positions[i].line, positions[i].column, &fault), &fault);
    MADE(smap_join_finish(join, &out, &fault));
    smap_free_join(join);
    MUST(smap_clone(map, &out, NULL) == SMAP_OK && is_same(map, out));
    smap_free_map(out);
    smap_position first;
    MUST(smap_first_difference(map, other, &first) != SMAP_NULL_HANDLE);
}

/* Builds a map of the tokens of another, some of them changed. */
static void build(const smap_map *map, const smap_counts *counts, const buffer *text) {
    smap_fault fault;
    smap_map *out = NULL;
    smap_builder *builder;
    uint32_t id;
    size_t len = below(text->len < 20 ? text->len : 20), count;
    const char *at = copied(text->at, len);
    smap_token *tokens = all_tokens(map, counts);
    for (size_t i = below(4); i < counts->tokens &&
        i < 4; i++) ((uint32_t *)&tokens[below(counts->tokens)])[below(6)] = (uint32_t)below(9) - 1;
    smap_text *names = exact(OUT, counts->names * sizeof *names);
    MUST(smap_get_names(map, names, counts->names, &count) == SMAP_OK);
    MADE(smap_from_tokens(tokens, counts->tokens, names, count, names, count, names, count, NULL, 0, &out, &fault));
    MUST(smap_builder_new(&builder, NULL) == SMAP_OK);
    told(smap_builder_add_name(builder, at, len, &id, &fault), &fault);
    told(smap_builder_add_source(builder, at, len, NULL, &fault), &fault);
    told(smap_builder_add_source_and_content(builder, at, len / 2, at, len, &id, &fault), &fault);
    told(smap_builder_set_file(builder, at, len, &fault), &fault);
    MUST(smap_builder_add_tokens(builder, tokens, counts->tokens, NULL) == SMAP_OK);
    MUST(smap_builder_finish(builder, &out, NULL) == SMAP_OK);
    smap_free_builder(builder);
    uint32_t is_sorted;
    MUST(smap_is_sorted(out, &is_sorted) == SMAP_OK);
    look_up(out, counts, is_sorted);
    MUST(smap_sort(out, NULL) == SMAP_OK);
    compile_sorted(out);
    smap_free_map(out);
}

/* Evaluates words at random over a text. */
static void evaluate(const buffer *text) {
    static const char *const WORD[] = { "@0", "@1", "sort", "rewrite", "root", "simplify", "join", "joinat", "compose", "remap",
        "1", "2", "0", "x" };
    smap_text words[12], texts[2];
    size_t len = below(12);
    smap_fault fault;
    smap_map *out = NULL;
    for (size_t i = 0; i < len; i++) words[i].at = WORD[below(14)], words[i].len = strlen(words[i].at);
    texts[0].at = copied(text->at, text->len), texts[0].len = text->len;
    texts[1] = texts[0];
    MADE(smap_evaluate(words, len, texts, 2, &out, &fault));
}

/* ---- scopes ---- */

/* Texts of scopes: first whole ones, then single items. */
#define WHOLE 7
static const char *const SCOPES[] = {
    "BFAAA,BHCAGA,CCA,BACA,CCA,CJA,", "A,BCCDA,CAG,", "EGAA,ECKC,IAFC,FK,FU,", "EMA,ECCA,FE,FC,", "BAAA,DAC,CJA,", "BAAA,DAC,CJA,ECAA,GBA,FU,",
    "BFAAA,DAC,DD,CJA,EGAA,GABC,HAAFBBCA,FCU,", "BFAAA,CJA,", "BABA,", "CBA,", "ECAC,", "EBBA,", "EAC,", "FBA,", "FC,", "IACB,", "IBED,",
    "BFAAA,DEDC,", "EGAC,GAB,HBBBA,", "DC,", "GACB,", "HAAFBBCA,",
};

/* A text of such, or of digits at random, without the last comma. */
static buffer scopes_text(char *room) {
    buffer it = { room, 0 };
    const size_t kinds = below(3) ? sizeof SCOPES / sizeof *SCOPES : WHOLE;
    for (size_t n = below(12); n; n--) {
        const char *piece = SCOPES[below(kinds)];
        replace(&it, it.len, 0, piece, strlen(piece));
    }
    if (it.len && below(16)) it.len--;
    for (size_t n = below(3) ? 0 : below(3); n; n--) {
        char byte = "ABCDEFGHIJKLgh/,;"[below(17)];
        replace(&it, below(it.len + 1), below(2), &byte, 1);
    }
    return it;
}

static int is_before(smap_position one, smap_position other) {
    return one.line < other.line || (one.line == other.line && one.column < other.column);
}

static int is_within(smap_position at, smap_position start, smap_position end) {
    return !is_before(at, start) && is_before(at, end);
}

/* Scopes and ranges lie in those around them, which come before them, and their ids are those of something. */
static void are_sound(const smap_scopes *scopes, const smap_scopes_counts *counts, size_t names) {
    smap_scope scope, outer;
    smap_range range, around;
    for (uint32_t i = 0; i < counts->scopes; i++) {
        MUST(smap_get_scope(scopes, i, &scope) == SMAP_OK && scope.source < counts->sources && !is_before(scope.end, scope.start));
        MUST((scope.name == SMAP_NO_ID || scope.name < names) && (scope.kind == SMAP_NO_ID || scope.kind < names) && scope.is_stack_frame < 2);
        if (scope.parent == SMAP_NO_ID) continue;
        MUST(scope.parent < i && smap_get_scope(scopes, scope.parent, &outer) == SMAP_OK && outer.source == scope.source);
        MUST(!is_before(scope.start, outer.start) && !is_before(outer.end, scope.end));
    }
    for (uint32_t i = 0; i < counts->ranges; i++) {
        MUST(smap_get_range(scopes, i, &range) == SMAP_OK && !is_before(range.end, range.start));
        MUST(range.is_stack_frame < 2 && range.is_hidden < 2 && (range.definition == SMAP_NO_ID || range.definition < counts->scopes));
        if (range.parent == SMAP_NO_ID) continue;
        MUST(range.parent < i && smap_get_range(scopes, range.parent, &around) == SMAP_OK);
        MUST(!is_before(range.start, around.start) && !is_before(around.end, range.end));
    }
    MUST(smap_get_scope(scopes, (uint32_t)counts->scopes, &scope) == SMAP_NO_ENTRY);
    MUST(smap_get_range(scopes, (uint32_t)counts->ranges, &range) == SMAP_NO_ENTRY);
}

/* A position of a source, and then of the code. */
static void ask_scopes(const smap_scopes *scopes, const smap_scopes_counts *counts) {
    smap_counts most = { 0, 0, 0, 0, 0, 9, 0 };
    smap_position at = any_position(&most);
    smap_scope scope;
    smap_range range;
    uint32_t index, source = (uint32_t)below(counts->sources + 1), is_hidden = 7;
    size_t count, few = below(3);
    if (!smap_scope_at(scopes, source, at.line, at.column, &index))
        MUST(smap_get_scope(scopes, index, &scope) == SMAP_OK && scope.source == source && is_within(at, scope.start, scope.end));
    if (!smap_function_at(scopes, source, at.line, at.column, &index))
        MUST(smap_get_scope(scopes, index, &scope) == SMAP_OK && scope.is_stack_frame && is_within(at, scope.start, scope.end));
    uint32_t code = smap_range_at(scopes, at.line, at.column, &index);
    if (!code) MUST(smap_get_range(scopes, index, &range) == SMAP_OK && is_within(at, range.start, range.end));
    MUST(smap_frames_at(scopes, at.line, at.column, NULL, 0, &count, &is_hidden) == SMAP_OK && is_hidden < 2 && (count == 0) == (code != SMAP_OK));
    smap_frame *frames = exact(OUT, count * sizeof *frames);
    MUST(smap_frames_at(scopes, at.line, at.column, frames, count, &count, NULL) == SMAP_OK);
    for (size_t i = 0; i < count; i++) {
        MUST((frames[i].call.source == SMAP_NO_ID) == (i == 0));
        if (frames[i].scope == SMAP_NO_ID) MUST(frames[i].name == SMAP_NO_ID);
        else MUST(smap_get_scope(scopes, frames[i].scope, &scope) == SMAP_OK && scope.is_stack_frame && scope.name == frames[i].name);
    }
    frames = exact(OUT, few * sizeof *frames);
    MUST(smap_frames_at(scopes, at.line, at.column, frames, few, &count, &is_hidden) == SMAP_OK);
}

/* The variables of a scope, and the value of one in a range: ids of names. */
static void ask_values(const smap_scopes *scopes, const smap_scopes_counts *counts, size_t names) {
    smap_counts most = { 0, 0, 0, 0, 0, 9, 0 };
    smap_position at = any_position(&most);
    uint32_t scope = (uint32_t)below(counts->scopes + 1), range = (uint32_t)below(counts->ranges + 1), value;
    size_t count, all, few = below(3);
    uint32_t code = smap_get_variables(scopes, scope, NULL, 0, &count);
    MUST(code == (scope < counts->scopes ? SMAP_OK : SMAP_NO_ENTRY));
    if (!code) {
        uint32_t *ids = exact(OUT, count * sizeof *ids);
        MUST(smap_get_variables(scopes, scope, ids, count, &all) == SMAP_OK && all == count);
        for (size_t i = 0; i < count; i++) MUST(ids[i] < names);
        ids = exact(OUT, few * sizeof *ids);
        MUST(smap_get_variables(scopes, scope, ids, few, &all) == SMAP_OK && all == count);
        if (count) read_variables++;
    }
    code = smap_value_at(scopes, range, (uint32_t)below(3), at.line, at.column, &value);
    MUST(code == (range < counts->ranges ? SMAP_OK : SMAP_NO_ENTRY) && (code || value == SMAP_NO_ID || value < names));
    if (!code && value != SMAP_NO_ID) read_values++;
}

/* A chain leads from this scope to the last one around it, each with a range at the position that is its code. */
static void is_chain(const smap_scopes *scopes, uint32_t scope, smap_position at, const smap_chain_entry *chain, size_t count) {
    smap_scope it;
    smap_range range;
    for (size_t i = 0; i < count; i++) {
        MUST(chain[i].scope == scope && smap_get_scope(scopes, scope, &it) == SMAP_OK);
        scope = it.parent;
        if (chain[i].range == SMAP_NO_ID) continue;
        MUST(smap_get_range(scopes, chain[i].range, &range) == SMAP_OK && range.definition == chain[i].scope && is_within(at, range.start, range.end));
    }
    MUST(scope == SMAP_NO_ID);
}

/* The chain at a position, or that of a frame there. */
static uint32_t chain_at(const smap_scopes *scopes, uint32_t frame, smap_position at, smap_chain_entry *out, size_t len, size_t *count) {
    if (frame == SMAP_NO_ID) return smap_scope_chain_at(scopes, at.line, at.column, out, len, count);
    return smap_scope_chain(scopes, frame, at.line, at.column, out, len, count);
}

/* Asks for it, and returns the range of its first scope, which is this one. */
static uint32_t ask_chain(const smap_scopes *scopes, uint32_t frame, uint32_t first, smap_position at) {
    size_t count, all, few = below(3);
    MUST(chain_at(scopes, frame, at, NULL, 0, &count) == SMAP_OK);
    smap_chain_entry *chain = exact(OUT, few * sizeof *chain);
    MUST(chain_at(scopes, frame, at, chain, few, &all) == SMAP_OK && all == count);
    chain = exact(OUT, count * sizeof *chain);
    MUST(chain_at(scopes, frame, at, chain, count, &all) == SMAP_OK && all == count);
    is_chain(scopes, first, at, chain, count);
    return count ? chain->range : SMAP_NO_ID;
}

/* The chain at a position of the code, and those of the frames there. */
static void ask_chains(const smap_scopes *scopes) {
    smap_counts most = { 0, 0, 0, 0, 0, 9, 0 };
    smap_position at = any_position(&most);
    smap_range range;
    smap_frame frames[8];
    uint32_t index, first = SMAP_NO_ID, is_hidden;
    size_t all, none;
    if (!smap_range_at(scopes, at.line, at.column, &index)) MUST(smap_get_range(scopes, index, &range) == SMAP_OK), first = range.definition;
    MUST(ask_chain(scopes, SMAP_NO_ID, first, at) == (first == SMAP_NO_ID ? SMAP_NO_ID : index));
    MUST(smap_frames_at(scopes, at.line, at.column, frames, 8, &all, &is_hidden) == SMAP_OK);
    MUST(smap_scope_chain(scopes, (uint32_t)all, at.line, at.column, NULL, 0, &none) == SMAP_NO_ENTRY);
    for (uint32_t i = 0; i < all && i < 8; i++) {
        if (i && smap_scope_at(scopes, frames[i].call.source, frames[i].call.line, frames[i].call.column, &first)) first = SMAP_NO_ID;
        ask_chain(scopes, i, first, at);
    }
}

/* Scopes that were read, or a fault. */
static void use_scopes(uint32_t code, smap_scopes *scopes, const smap_fault *fault, size_t names) {
    smap_scopes_counts counts;
    told(code, fault);
    if (code) {
        refused_scopes++;
        return;
    }
    read_scopes++;
    MUST(smap_scopes_get_counts(scopes, &counts) == SMAP_OK);
    are_sound(scopes, &counts, names);
    for (int i = 0; i < 8; i++) ask_scopes(scopes, &counts), ask_values(scopes, &counts, names), ask_chains(scopes);
    smap_free_scopes(scopes);
}

/* Scopes alone, and those that a text has. */
static void try_scopes(const buffer *text) {
    static char room[4096];
    buffer it = scopes_text(room);
    smap_scopes *scopes = NULL;
    smap_fault fault;
    size_t names = below(4) ? 9 : below(3);
    uint32_t code = smap_decode_scopes(copied(it.at, it.len), it.len, names, &scopes, &fault);
    MUST(code != SMAP_BAD_SCOPES || (fault.detail <= it.len && fault.field >= SMAP_SCOPES_NOT_A_DIGIT && fault.field <= SMAP_SCOPES_SPLIT_TWICE));
    use_scopes(code, scopes, &fault, names);
    /* (a map of a file has no scopes, unless they came there by chance) */
    code = smap_read_scopes(copied(text->at, text->len), text->len, &scopes, &fault);
    use_scopes(code, scopes, &fault, MOST);
    char *json = exact(INPUT, it.len + 13);
    memcpy(json, "{\"scopes\":\"", 11), memcpy(json + 11, it.at, it.len), memcpy(json + 11 + it.len, "\"}", 2);
    code = smap_read_scopes(json, it.len + 13, &scopes, &fault);
    use_scopes(code, scopes, &fault, 0);
}

/* Every call on a map that was read. */
static void use(smap_map *map, const smap_map *other, const buffer *text, const buffer *code) {
    smap_counts counts;
    uint32_t is_sorted = 0, is_sound = 0;
    MUST(smap_get_counts(map, &counts) == SMAP_OK && smap_is_sorted(map, &is_sorted) == SMAP_OK &&
         smap_is_sound(map, &is_sound) == SMAP_OK);
    MUST(is_sorted || !is_sound);
    read_lists(map, &counts);
    look_up(map, &counts, is_sorted);
    write_back(map, is_sound);
    write_parts(map, &counts, code);
    compile(map, &counts, is_sorted);
    if (other) combine(map, other, &counts);
    build(map, &counts, text);
    MUST(smap_index_sources(map, NULL) == SMAP_OK);
    look_back(map, &counts);
}

/* One round: a text, read in both ways. The map that is read is kept, in the place of the one before. */
static void try_text(const buffer *text, smap_map **kept) {
    const buffer *code = &files[below(files_len)];
    smap_map *map = NULL, *found = NULL;
    smap_mends *mends = NULL;
    smap_fault fault, of_found;
    uint32_t answer = smap_from_json_string(copied(text->at, text->len), text->len, &map, &fault), is_sorted = 0;
    told(answer, &fault);
    uint32_t answer_found = smap_read_found(copied(text->at, text->len), text->len, &found, &mends, &of_found);
    told(answer_found, &of_found);
    if (answer) refused_maps++;
    else read_maps++;
    if (!answer_found) {
        size_t count;
        MUST(smap_get_mends(mends, NULL, 0, &count) == SMAP_OK);
        smap_mend *out = exact(OUT, count * sizeof *out);
        MUST(smap_get_mends(mends, out, count, &count) == SMAP_OK);
        for (size_t i = 0; i < count; i++) {
            size_t len = smap_mend_message(&out[i], NULL, 0);
            MUST(len && smap_mend_message(&out[i], exact(WORDS, len), len) == len);
        }
        if (!answer) MUST(smap_is_sorted(map, &is_sorted) == SMAP_OK && (!is_sorted || (count == 0 && is_same(map, found))));
        use(found, *kept, text, code);
    }
    if (map) use(map, *kept, text, code);
    smap_counts counts;
    if (map && smap_get_counts(map, &counts) == SMAP_OK) change(map, &counts, text);
    if (!below(4)) evaluate(text);
    try_scopes(text);
    smap_free_mends(mends);
    smap_free_map(map);
    if (found) smap_free_map(*kept), *kept = found;
}

static buffer read_file(const char *path) {
    buffer it = { NULL, 0 };
    FILE *file = fopen(path, "rb");
    MUST(file != NULL && fseek(file, 0, SEEK_END) == 0);
    it.len = (size_t)ftell(file);
    it.at = malloc(it.len + 1);
    rewind(file);
    MUST(it.at != NULL && fread(it.at, 1, it.len, file) == it.len);
    fclose(file);
    return it;
}

int main(int argc, char **argv) {
    buffer text = { malloc(MOST + 256), 0 };
    smap_map *kept = NULL;
    if (argc < 4) return 2;
    files_len = (size_t)argc - 3;
    files = calloc(files_len, sizeof *files);
    for (size_t i = 0; i < files_len; i++) files[i] = read_file(argv[i + 3]);
    unsigned long rounds = strtoul(argv[1], NULL, 10);
    uint64_t first = strtoull(argv[2], NULL, 10);
    for (seed = first; seed < first + rounds; seed++) {
        state = seed;
        const buffer *from = &files[below(files_len)];
        memcpy(text.at, from->at, text.len = from->len < MOST ? from->len : MOST);
        for (size_t n = below(below(4) ? 3 : 40); n; n--) mutate(&text);
        try_text(&text, &kept);
    }
    printf("%lu texts read, %lu refused; %lu compiled maps damaged, %lu of them opened, %lu taken apart\n", read_maps, refused_maps, damaged_bytes,
           damaged_maps, taken_apart);
    printf("%lu texts of scopes read, %lu refused; %lu lists of variables, %lu values\n", read_scopes, refused_scopes, read_variables, read_values);
    MUST(rounds < 1000 || (read_scopes > rounds / 2 && refused_scopes > rounds / 2 && read_variables > rounds / 8 && read_values > rounds / 20));
    MUST(rounds < 1000 || (taken_apart > rounds && damaged_maps > taken_apart && damaged_bytes > damaged_maps));
    smap_free_map(kept);
    for (size_t i = 0; i < files_len; i++) free(files[i].at);
    free(files);
    free(text.at);
    return 0;
}

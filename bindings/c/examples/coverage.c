/* Which lines of the originals ran, by V8's block coverage of a generated code and the code's map.
 *
 *   coverage CODE..
 *
 * For each CODE: the file is read, its map CODE.map, and its coverage CODE.coverage.json, an entry of what node writes for
 * NODE_V8_COVERAGE. It prints how many original lines with code ran and how many did not, and for each source which did not, lines
 * counted from 1. A line ran if a UTF-16 unit of it ran; white space and `( ) [ ] { } , : ;` count for no line. If something cannot be
 * read, it says what is wrong, and the status is 1.
 */
#include "oxc_sourcemap.h"

#include <ctype.h>
#include <errno.h>
#include <stdio.h>
#include <stdlib.h>
#include <string.h>

enum { RAN = 1, IDLE = 2 };

typedef struct block {
    size_t start, end, count, number;
} block;

/* Says what is wrong with a file, and ends the program. */
static void fail(const char *code, const char *ending, const char *what) {
    fprintf(stderr, "%s%s: %s\n", code, ending, what);
    exit(1);
}

static void *checked(void *at) {
    if (!at) fail("coverage", "", "out of memory");
    return at;
}

/* Says what is wrong with a map, if its fault has a code. */
static void check_map(const char *code, const smap_fault *fault) {
    char message[256] = "";
    if (fault->code == SMAP_OK) return;
    smap_message(fault, message, sizeof message - 1);
    fail(code, ".map", message);
}

/* A file, with a zero byte behind it. */
static char *read_file(const char *code, const char *ending) {
    char *path = checked(malloc(strlen(code) + strlen(ending) + 1)), *bytes = NULL;
    sprintf(path, "%s%s", code, ending);
    FILE *file = fopen(path, "rb");
    if (!file || fseek(file, 0, SEEK_END) || ftell(file) < 0) fail(path, "", strerror(errno));
    size_t len = (size_t)ftell(file);
    rewind(file);
    bytes = checked(calloc(len + 1, 1));
    if (fread(bytes, 1, len, file) != len) fail(path, "", strerror(errno));
    fclose(file);
    free(path);
    return bytes;
}

/* The first block, then those in it: of equal ones the last is the inner one. */
static int in_order(const void *one, const void *two) {
    const block *a = one, *b = two;
    if (a->start != b->start) return a->start < b->start ? -1 : 1;
    if (a->end != b->end) return a->end > b->end ? -1 : 1;
    return a->number < b->number ? -1 : 1;
}

/* What follows this text of JSON and the white space around it; null if something else stands there. */
static const char *behind(const char *at, const char *text) {
    at += strspn(at, " \t\r\n");
    if (strncmp(at, text, strlen(text)) != 0) return NULL;
    at += strlen(text);
    return at + strspn(at, " \t\r\n");
}

/* Reads a member with a whole number, and returns what follows it; null if it is none. */
static const char *read_member(const char *at, const char *key, size_t *number) {
    char *end;
    if (!at || !(at = behind(at, key)) || !(at = behind(at, ":")) || !isdigit((unsigned char)*at)) return NULL;
    *number = strtoull(at, &end, 10);
    return end;
}

/* Reads a range, whose members are in the order in which V8 writes them, and returns whether it is one. */
static int read_range(const char *at, block *it) {
    at = read_member(at, "\"startOffset\"", &it->start);
    at = read_member(at ? behind(at, ",") : NULL, "\"endOffset\"", &it->end);
    return read_member(at ? behind(at, ",") : NULL, "\"count\"", &it->count) != NULL;
}

/* The blocks of the coverage, in order. (A string that reads as this key has no colon behind it.) */
static block *read_blocks(const char *code, const char *json, size_t *len) {
    block *blocks = NULL;
    *len = 0;
    for (const char *at = json; (at = strstr(at, "\"startOffset\"")); at++) {
        block it = { 0, 0, 0, *len };
        if (*behind(at, "\"startOffset\"") != ':') continue;
        if (!read_range(at, &it)) fail(code, ".coverage.json", "a range is not startOffset, endOffset and count, in this order, whole numbers");
        blocks = checked(realloc(blocks, (*len + 1) * sizeof *blocks));
        blocks[(*len)++] = it;
    }
    if (!blocks) fail(code, ".coverage.json", "there is no range of V8's coverage");
    qsort(blocks, *len, sizeof *blocks, in_order);
    return blocks;
}

/* The UTF-16 units of a text, and how many there are. */
static uint16_t *units_of(const char *text, size_t *len) {
    const unsigned char *at = (const unsigned char *)text;
    uint16_t *units = checked(malloc((strlen(text) + 1) * sizeof *units));
    *len = 0;
    while (*at) {
        int more = *at < 0x80 ? 0 : *at < 0xe0 ? 1 : *at < 0xf0 ? 2 : 3;
        uint32_t c = more ? *at & (0x3fu >> more) : *at;
        for (at++; more; more--) c = c << 6 | (*at++ & 0x3fu);
        if (c > 0xffff) units[(*len)++] = (uint16_t)(0xd7c0 + (c >> 10)), c = 0xdc00 | (c & 0x3ff);
        units[(*len)++] = (uint16_t)c;
    }
    return units;
}

static int ends_line(const uint16_t *units, size_t len, size_t i) {
    return units[i] == '\n' || units[i] == 0x2028 || units[i] == 0x2029 || (units[i] == '\r' && (i + 1 == len ||
           units[i + 1] != '\n'));
}

static int counts(uint16_t unit) {
    return unit > 0x7f ? unit != 0xa0 && unit != 0xfeff && unit != 0x2028 && unit != 0x2029 : !strchr("\t\n\v\f\r ()[]{},:;", unit);
}

/* The pieces of all of the code. */
static smap_piece *pieces_of(const char *code, const smap_map *map) {
    smap_position begin = { 0, 0 }, end = { UINT32_MAX, UINT32_MAX };
    smap_fault fault = { 0 };
    size_t count;
    fault.code = smap_pieces(map, begin, end, NULL, 0, &count);
    check_map(code, &fault);
    smap_piece *pieces = checked(malloc(count * sizeof *pieces));
    smap_pieces(map, begin, end, pieces, count, &count);
    return pieces;
}

/* Marks the original line of each unit as having run or not: a byte for each line of each source, `most` lines each. */
static void mark(const smap_piece *pieces, const smap_token *tokens, const uint16_t *units, const block **of, size_t len, char *lines,
                 size_t most) {
    smap_position at = { 0, 0 };
    size_t k = 0;
    for (size_t i = 0; i < len; i++) {
        while (at.line > pieces[k].end.line || (at.line == pieces[k].end.line && at.column >= pieces[k].end.column)) k++;
        const smap_token *token = pieces[k].index == SMAP_NO_ID ? NULL : &tokens[pieces[k].index];
        if (token && token->source_id != SMAP_NO_ID && of[i] && counts(units[i]))
            lines[token->source_id * most + token->src_line] |= of[i]->count ? RAN : IDLE;
        at.column++;
        if (ends_line(units, len, i)) at.line++, at.column = 0;
    }
}

/* Prints how many of these lines ran and did not. */
static void print_counts(const char *name, size_t name_len, const char *lines, size_t len, const char *end) {
    size_t ran = 0, idle = 0;
    for (size_t i = 0; i < len; i++) ran += (lines[i] & RAN) != 0, idle += lines[i] == IDLE;
    printf("%.*s: %zu lines ran, %zu did not%s", (int)name_len, name, ran, idle, end);
}

static void cover(const char *code) {
    char *text = read_file(code, ""), *json = read_file(code, ".map"), *coverage = read_file(code, ".coverage.json");
    smap_map *map;
    smap_counts all;
    smap_fault fault;
    size_t len, blocks_len, count, most = 0;
    smap_from_json_string(json, strlen(json), &map, &fault);
    check_map(code, &fault);
    smap_get_counts(map, &all);
    smap_token *tokens = checked(malloc(all.tokens * sizeof *tokens + 1));
    smap_text *sources = checked(malloc(all.sources * sizeof *sources + 1));
    smap_get_tokens(map, tokens, all.tokens, &count);
    smap_get_sources(map, sources, all.sources, &count);
    smap_piece *pieces = pieces_of(code, map);
    uint16_t *units = units_of(text, &len);
    block *blocks = read_blocks(code, coverage, &blocks_len);
    const block **of = checked(calloc(len + 1, sizeof *of));
    for (size_t k = 0; k < blocks_len; k++)
        for (size_t i = blocks[k].start; i < blocks[k].end && i < len; i++) of[i] = &blocks[k];
    for (size_t i = 0; i < all.tokens; i++) most = tokens[i].src_line >= most ? (size_t)tokens[i].src_line + 1 : most;
    char *lines = checked(calloc(all.sources * most + 1, 1));
    mark(pieces, tokens, units, of, len, lines, most);
    print_counts(code, strlen(code), lines, all.sources * most, "\n");
    for (size_t k = 0; k < all.sources; k++) {
        const char *before = "[";
        printf("  ");
        print_counts(sources[k].at, sources[k].len, &lines[k * most], most, ": ");
        for (size_t i = 0; i < most; i++)
            if (lines[k * most + i] == IDLE) printf("%s%zu", before, i + 1), before = ", ";
        printf("%s]\n", *before == '[' ? "[" : "");
    }
    smap_free_map(map);
    free(text), free(json), free(coverage), free(tokens), free(sources), free(pieces), free(units), free(blocks), free(of), free(lines);
}

int main(int argc, char **argv) {
    for (int i = 1; i < argc; i++) cover(argv[i]);
    return 0;
}

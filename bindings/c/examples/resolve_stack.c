/* Resolves a JavaScript stack trace.
 *
 *   resolve_stack DIRECTORY < stack.txt
 *
 * Every position FILE:LINE:COLUMN at the end of a line of the input, as V8, Firefox and Safari print it, is looked up in the
 * map DIRECTORY/NAME.map, where NAME is the last part of FILE, and replaced by the original position. All else is copied, byte by
 * byte; a line may have any length.
 */
#include "oxc_sourcemap.h"

#include <stdio.h>
#include <stdlib.h>
#include <string.h>

/* The map of a generated file; null if there is none that can be read. */
typedef struct entry {
    char *name;
    smap_map *map;
    struct entry *next;
} entry;

static void complain(const char *path, const smap_fault *fault) {
    char message[256], place[256];
    size_t len = smap_message(fault, message, sizeof message), place_len = smap_place_message(fault, place, sizeof place);
    if (len > sizeof message) len = sizeof message;
    if (place_len > sizeof place) place_len = sizeof place;
    fprintf(stderr, "%s: %.*s %.*s\n", path, (int)len, message, (int)place_len, place);
}

static char *read_file(const char *path, size_t *len) {
    FILE *file = fopen(path, "rb");
    if (!file) return NULL;
    size_t room = 1 << 16;
    char *bytes = malloc(room);
    *len = 0;
    while (bytes) {
        size_t got = fread(bytes + *len, 1, room - *len, file);
        if (got == 0) break;
        *len += got;
        if (*len == room) {
            char *more = realloc(bytes, room *= 2);
            if (!more) free(bytes);
            bytes = more;
        }
    }
    fclose(file);
    return bytes;
}

static smap_map *read_map(const char *path) {
    size_t len;
    smap_fault fault;
    smap_map *map = NULL;
    char *bytes = read_file(path, &len);
    if (bytes && smap_read_found(bytes, len, &map, NULL, &fault) != SMAP_OK) complain(path, &fault);
    free(bytes);
    return map;
}

/* A line of the input with its end, if it has one, and a zero byte. */
typedef struct input_line {
    char *at;
    size_t len, room;
} input_line;

/* Reads the next line, and returns whether there is one. */
static int read_line(input_line *line) {
    line->len = 0;
    for (int c = getchar(); c != EOF; c = c == '\n' ? EOF : getchar()) {
        if (line->len + 2 > line->room) {
            char *more = realloc(line->at, line->room = 2 * line->room + 256);
            if (!more) exit(1);
            line->at = more;
        }
        line->at[line->len++] = (char)c;
        line->at[line->len] = 0;
    }
    return line->len > 0;
}

/* Its length without its end, a line feed or a carriage return and a line feed. */
static size_t length_of(const input_line *line) {
    size_t len = line->len;
    if (len > 0 && line->at[len - 1] == '\n') len--;
    if (len < line->len && len > 0 && line->at[len - 1] == '\r') len--;
    return len;
}

/* The map of this file, which is read when it is first asked for. */
static smap_map *map_of(entry **entries, const char *directory, const char *name, size_t len) {
    for (entry *it = *entries; it; it = it->next)
        if (strlen(it->name) == len && memcmp(it->name, name, len) == 0) return it->map;
    entry *made = calloc(1, sizeof *made);
    char *path = malloc(strlen(directory) + len + 6);
    if (!made || !path || !(made->name = malloc(len + 1))) exit(1);
    memcpy(made->name, name, len);
    made->name[len] = 0;
    sprintf(path, "%s/%s.map", directory, made->name);
    made->map = read_map(path);
    free(path);
    made->next = *entries;
    *entries = made;
    return made->map;
}

/* The number that ends before *end, after a colon; *end is then where the colon is. 0 if there is none. */
static uint32_t number_before(const char *line, const char **end) {
    const char *at = *end;
    uint64_t number = 0, place = 1;
    while (at > line && at[-1] >= '0' && at[-1] <= '9' && place < 10000000000) {
        number += place * (uint64_t)(*--at - '0');
        place *= 10;
    }
    if (at == *end || at == line || at[-1] != ':' || number > UINT32_MAX) return 0;
    *end = at - 1;
    return (uint32_t)number;
}

/* Where the file of a line begins, which ends at `end`: in the parentheses at the end of the line, behind `at`, behind a function and
 * `@`, or at the last word. */
static const char *file_in(const char *line, const char *end, int is_in_parentheses) {
    const char *file = end, *first = line + strspn(line, " ");
    if (is_in_parentheses) {
        while (file > line && file[-1] != '(') file--;
        return file;
    }
    if (strncmp(first, "at ", 3) == 0) return first + (strncmp(first + 3, "async ", 6) == 0 ? 9 : 3);
    for (const char *at = line; at < end; at++)
        if (*at == '@' && (at == line || at[-1] != '/')) return at + 1;
    while (file > line && file[-1] != ' ') file--;
    return file;
}

/* Prints the line with its position resolved. */
static void print_resolved(entry **entries, const char *directory, const input_line *whole) {
    const char *line = whole->at, *tail = line + length_of(whole), *behind = line + whole->len;
    if (tail > line && tail[-1] == ')') tail--;
    const char *end = tail;
    uint32_t column = number_before(line, &end), row = column ? number_before(line, &end) : 0;
    const char *file = file_in(line, end, *tail == ')'), *name = end;
    while (name > file && name[-1] != '/') name--;
    smap_original it;
    const smap_map *map = row && name < end ? map_of(entries, directory, name, (size_t)(end - name)) : NULL;
    if (map && smap_trace(map, row - 1, column - 1, SMAP_BEFORE, &it, NULL) == SMAP_OK && it.kind >= SMAP_MAPPED) {
        fwrite(line, 1, (size_t)(file - line), stdout);
        fwrite(it.source.at, 1, it.source.len, stdout);
        printf(":%u:%u", it.token.src_line + 1, it.token.src_col + 1);
        line = tail;
    }
    fwrite(line, 1, (size_t)(behind - line), stdout);
}

int main(int argc, char **argv) {
    if (argc != 2) {
        fprintf(stderr, "usage: %s DIRECTORY < stack.txt\n", argv[0]);
        return 2;
    }
    entry *entries = NULL;
    input_line line = { NULL, 0, 0 };
    while (read_line(&line)) print_resolved(&entries, argv[1], &line);
    free(line.at);
    while (entries) {
        entry *it = entries;
        entries = it->next;
        smap_free_map(it->map);
        free(it->name);
        free(it);
    }
    return 0;
}

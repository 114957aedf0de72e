/* trace_all [--compiled] FILE.map: answers each line `LINE COLUMN` of standard input with two lines, what the map says of the position
 * and what it says clamped: `nothing`, `unmapped`, or `SOURCE:LINE:COLUMN`, then a space and the name if there is one. With --compiled it
 * says what the compiled map says. Ends with status 1 and a message if a call is refused or the map is not sorted. */
#include "oxc_sourcemap.h"

#include <stdio.h>
#include <stdlib.h>

static char *read_file(const char *path, size_t *len) {
    FILE *file = fopen(path, "rb");
    char *bytes = NULL;
    if (file && !fseek(file, 0, SEEK_END) && (bytes = malloc((*len = (size_t)ftell(file)) + 1))) {
        rewind(file);
        if (fread(bytes, 1, *len, file) != *len) exit(1);
    }
    if (!bytes) exit(1);
    fclose(file);
    return bytes;
}

static void print(const smap_original *p) {
    if (p->kind == SMAP_NOTHING) {
        puts("nothing");
    } else if (p->kind == SMAP_UNMAPPED) {
        puts("unmapped");
    } else {
        printf("%.*s:%u:%u", (int)p->source.len, p->source.at, p->token.src_line, p->token.src_col);
        if (p->kind == SMAP_NAMED) printf(" %.*s", (int)p->name.len, p->name.at);
        putchar('\n');
    }
}

static int refused(const smap_fault *fault) {
    char text[256];
    size_t len = smap_message(fault, text, sizeof text);
    fprintf(stderr, "%.*s\n", (int)(len < sizeof text ? len : sizeof text), text);
    return 1;
}

int main(int argc, char **argv) {
    smap_map *map;
    smap_string *made = NULL;
    smap_compiled *compiled = NULL;
    smap_text bytes;
    smap_fault fault;
    smap_original place;
    size_t len;
    uint32_t is_sorted;
    unsigned line, column;
    char *json = read_file(argv[argc - 1], &len);
    if (smap_from_json_string(json, len, &map, &fault)) return refused(&fault);
    free(json);
    if (smap_is_sorted(map, &is_sorted) || !is_sorted) {
        fputs("Tokens are not in order of line and column\n", stderr);
        return 1;
    }
    if (argc > 2 && (smap_compile(map, 0, NULL, &made, &fault) || smap_get_text(made, &bytes) ||
                     smap_open_compiled(bytes.at, bytes.len, &compiled, &fault)))
        return refused(&fault);
    while (scanf("%u %u", &line, &column) == 2) {
        for (uint32_t bias = SMAP_BEFORE; bias <= SMAP_CLAMPED; bias++) {
            if (compiled ? smap_compiled_trace(compiled, line, column, bias, &place) : smap_trace(map, line, column, bias, &place, &fault))
                return refused(&fault);
            print(&place);
        }
    }
    smap_free_compiled(compiled);
    smap_free_string(made);
    smap_free_map(map);
    return 0;
}

/* Puts JavaScript modules one behind the other, and makes the map of the whole.
 *
 *   bundler OUT MODULE..
 *
 * Each MODULE names its map in a comment `sourceMappingURL` at its end, as a file beside it or as a data URL. The maps are joined, each at
 * the line where its module begins. A source of theirs that has a map itself, SOURCE.map in the folder of the first module, is led back
 * through that. The code is written to OUT, and the map to OUT.map.
 */
#include "oxc_sourcemap.h"

#include <stdio.h>
#include <stdlib.h>
#include <string.h>

#define MOST 1000

/* Ends the program with the message of an error, if there is one. */
static void check(const char *what, uint32_t code, const smap_fault *fault) {
    char message[256], place[256];
    if (code == SMAP_OK) return;
    size_t len = smap_message(fault, message, sizeof message), place_len = smap_place_message(fault, place, sizeof place);
    if (len > sizeof message) len = sizeof message;
    if (place_len > sizeof place) place_len = sizeof place;
    fprintf(stderr, "%s: %s: %.*s %.*s\n", what, smap_code_name(code), (int)len, message, (int)place_len, place);
    exit(1);
}

static void *checked(void *at) { return at ? at : (exit(1), at); }

/* The path of NAME and an ending in the folder of a file. */
static char *beside(const char *file, smap_text name, const char *ending) {
    const char *slash = strrchr(file, '/');
    size_t len = slash ? (size_t)(slash - file) + 1 : 0;
    char *path = checked(malloc(len + name.len + strlen(ending) + 1));
    memcpy(path, file, len);
    memcpy(path + len, name.at, name.len);
    strcpy(path + len + name.len, ending);
    return path;
}

/* A file; null if it is not there. */
static char *read_file(const char *path, size_t *len) {
    FILE *file = fopen(path, "rb");
    if (!file) return NULL;
    fseek(file, 0, SEEK_END);
    *len = (size_t)ftell(file);
    rewind(file);
    char *bytes = checked(malloc(*len + 1));
    if (fread(bytes, 1, *len, file) != *len) exit(1);
    fclose(file);
    return bytes;
}

static smap_map *read_map(const char *path) {
    size_t len;
    smap_map *map = NULL;
    smap_fault fault;
    char *text = read_file(path, &len);
    if (text) check(path, smap_read_found(text, len, &map, NULL, &fault), &fault);
    free(text);
    return map;
}

/* The map that this URL, of a module, stands for. */
static smap_map *map_of(const char *module, smap_text url) {
    smap_string *string;
    smap_text text;
    smap_map *map;
    smap_fault fault;
    uint32_t code = smap_decode_data_url(url.at, url.len, &string, &fault);
    if (code == SMAP_NO_ENTRY) {
        char *path = beside(module, url, "");
        if (!(map = read_map(path))) fprintf(stderr, "%s: the map %s is not there\n", module, path);
        free(path);
        return checked(map);
    }
    check(module, code, &fault);
    smap_get_text(string, &text);
    check(module, smap_from_json_string(text.at, text.len, &map, &fault), &fault);
    smap_free_string(string);
    return map;
}

/* Writes a module without the comment that names its map, adds its map, and returns how many lines were written: whole ones. */
static uint32_t add_module(FILE *out, smap_join *join, const char *module, uint32_t line) {
    size_t len;
    smap_text url;
    smap_fault fault;
    uint32_t lines = 0;
    char *code = checked(read_file(module, &len));
    if (smap_source_mapping_url(code, len, SMAP_JAVASCRIPT, &url, &fault) == SMAP_OK) {
        smap_map *map = map_of(module, url);
        check(module, smap_apply_source_root(map, &fault), &fault); /* joins drop it */
        check(module, smap_join_add(join, map, line, 0, &fault), &fault);
        smap_free_map(map);
        for (len = (size_t)(url.at - code) - 1; code[len] != '/' || !strchr("/*", code[len + 1]);) len--;
    }
    if (len && code[len - 1] != '\n') code[len++] = '\n'; /* (there is room for one more) */
    fwrite(code, 1, len, out);
    for (size_t i = 0; i < len; i++) lines += code[i] == '\n';
    free(code);
    return lines;
}

/* A map, led back through those of its sources that have one; the map is freed. */
static smap_map *remapped(smap_map *map, const char *module) {
    static smap_text sources[MOST], paths[MOST];
    static smap_map *inputs[MOST], *out;
    size_t count, len = 0;
    smap_fault fault;
    if (smap_get_sources(map, sources, MOST, &count) || count > MOST) exit(1);
    for (size_t i = 0; i < count; i++) {
        char *path = beside(module, sources[i], ".map");
        if ((inputs[len] = read_map(path))) paths[len++] = sources[i];
        free(path);
    }
    check("remap", smap_remap(map, paths, len, (const smap_map *const *)inputs, len, &out, &fault), &fault);
    while (len) smap_free_map(inputs[--len]);
    smap_free_map(map);
    return out;
}

int main(int argc, char **argv) {
    smap_join *join;
    smap_map *map;
    smap_string *json;
    smap_text text;
    smap_fault fault;
    uint32_t line = 0;
    if (argc < 3) return 2;
    const char *name = strrchr(argv[1], '/') ? strrchr(argv[1], '/') + 1 : argv[1];
    char path[4096];
    FILE *file = checked(fopen(argv[1], "wb"));
    check("join", smap_join_new(&join, &fault), &fault);
    for (int i = 2; i < argc; i++) line += add_module(file, join, argv[i], line);
    check("join", smap_join_finish(join, &map, &fault), &fault);
    map = remapped(map, argv[2]);
    check("file", smap_set_file(map, name, strlen(name), &fault), &fault);
    check("write", smap_to_json_string(map, &json, &fault), &fault);
    fprintf(file, "//# sourceMappingURL=%s.map\n", name);
    snprintf(path, sizeof path, "%s.map", argv[1]);
    FILE *map_file = checked(fopen(path, "wb"));
    if (smap_get_text(json, &text) == SMAP_OK) fwrite(text.at, 1, text.len, map_file);
    if (fclose(file) || fclose(map_file)) return 1;
    smap_free_string(json);
    smap_free_map(map);
    smap_free_join(join);
    return 0;
}

/* Files that the system maps into memory. A module for WebAssembly has none, but as many checks: those of all files are one. */
#define _DEFAULT_SOURCE
#include "tests.h"

#ifdef __unix__
#include <errno.h>
#include <fcntl.h>
#include <sys/mman.h>
#include <sys/stat.h>
#include <unistd.h>

static int all_hold;
#define HOLDS(condition) holds(condition, __LINE__, #condition)
static void holds(int is_so, int line, const char *condition) {
    if (is_so) return;
    printf("%s:%d: %s\n", __FILE__, line, condition);
    all_hold = 0;
}

/* Whether a fault has this code and this number, and these words. */
static int tells(const smap_fault *fault, int reason, const char *words) {
    char out[100];
    size_t len = smap_message(fault, out, sizeof out);
    return is_fault(fault, SMAP_NO_FILE, (uint64_t)reason) && len == strlen(words) && memcmp(out, words, len) == 0;
}

static void refuses_file(const char *path, int reason, const char *words) {
    smap_file *out = (smap_file *)&failed;
    smap_text bytes = text_of("kept");
    smap_fault fault = junk();
    HOLDS(smap_map_file(path, &out, &bytes, &fault) == SMAP_NO_FILE && tells(&fault, reason, words));
    HOLDS(smap_map_file(path, &out, &bytes, NULL) == SMAP_NO_FILE);
    HOLDS(out == (smap_file *)&failed && is(&bytes, "kept"));
}

/* A name in the folder of the tests. */
static const char *in_folder(const char *folder, const char *name) {
    static char path[200];
    sprintf(path, "%s/%s", folder, name);
    return path;
}

/* Whether nothing is mapped at this address any more. */
static int is_gone(const char *from) {
    unsigned char there;
    return mincore((void *)from, 1, &there) == -1 && errno == ENOMEM;
}

static void write_file(const char *path, const smap_text *bytes) {
    FILE *file = fopen(path, "wb");
    HOLDS(file != NULL && fwrite(bytes->at, 1, bytes->len, file) == bytes->len && fclose(file) == 0);
}

/* The number that the next file which is opened gets. */
static int next_file(void) {
    int it = dup(1);
    close(it);
    return it;
}

/* A compiled map is written to a file, and asked where the system maps it. */
static void compiled_map_in(const char *path) {
    smap_map *map = NULL;
    smap_string *string = NULL;
    smap_compiled *compiled = NULL;
    smap_file *file = NULL;
    smap_text written, bytes = text_of("kept");
    smap_original p;
    smap_fault fault = junk();
    int before = next_file();
    HOLDS(smap_from_json_string(TEXT(A), &map, NULL) == SMAP_OK && smap_compile(map, 0, NULL, &string, NULL) == SMAP_OK);
    HOLDS(smap_get_text(string, &written) == SMAP_OK);
    write_file(path, &written);
    HOLDS(smap_map_file(path, &file, &bytes, &fault) == SMAP_OK && is_none(&fault) && next_file() == before);
    HOLDS(bytes.len == written.len && memcmp(bytes.at, written.at, bytes.len) == 0);
    HOLDS(smap_open_compiled(bytes.at, bytes.len, &compiled, NULL) == SMAP_OK);
    HOLDS(smap_compiled_trace(compiled, 0, 4, SMAP_BEFORE, &p) == SMAP_OK && p.kind == SMAP_NAMED && is(&p.name, "hi"));
    HOLDS(is(&p.source, "a.ts") && p.name.at > bytes.at && p.name.at < bytes.at + bytes.len);
    smap_free_compiled(compiled);
    HOLDS(!is_gone(bytes.at));
    smap_free_file(file);
    HOLDS(is_gone(bytes.at));
    smap_free_string(string);
    smap_free_map(map);
}

/* What is not a plain file is refused at once: a pipe, too, to which nobody writes. */
static void no_plain_files(const char *folder) {
    const char *pipe_path = in_folder(folder, "pipe");
    int before = next_file();
    refuses_file(folder, 0, "It is no plain file");
    HOLDS(mkfifo(pipe_path, 0600) == 0);
    alarm(20);
    refuses_file(pipe_path, 0, "It is no plain file");
    alarm(0);
    HOLDS(unlink(pipe_path) == 0 && next_file() == before);
}

/* A plain file that cannot be mapped, as one of the kernel's, is refused by the system's error. Where there is none, nothing is tried. */
static void not_mapped(const char *path) {
    int from = open(path, O_RDONLY);
    void *at = from < 0 ? NULL : mmap(NULL, 4096, PROT_READ, MAP_SHARED, from, 0);
    int reason = at == MAP_FAILED ? errno : 0;
    if (reason) refuses_file(path, reason, strerror(reason));
    else if (at) munmap(at, 4096);
    if (from >= 0) close(from);
}

static void empty_file(const char *path) {
    smap_file *file = NULL;
    smap_compiled *compiled = (smap_compiled *)&failed;
    smap_text none = { "", 0 }, bytes = text_of("kept");
    write_file(path, &none);
    HOLDS(smap_map_file(path, &file, &bytes, NULL) == SMAP_OK && file != NULL && bytes.at != NULL && bytes.len == 0);
    HOLDS(smap_open_compiled(bytes.at, 0, &compiled, NULL) == SMAP_NOT_COMPILED);
    smap_free_file(file);
}

/* Memory is refused before the file is looked at. */
static void no_memory(const char *path) {
    smap_file *file = (smap_file *)&failed;
    smap_text bytes = text_of("kept");
    smap_fault fault = junk();
    left = 0;
    HOLDS(smap_map_file(path, &file, &bytes, &fault) == SMAP_OUT_OF_MEMORY && is_fault(&fault, SMAP_OUT_OF_MEMORY, 0));
    left = 0;
    HOLDS(smap_map_file(path, &file, &bytes, NULL) == SMAP_OUT_OF_MEMORY);
    left = -1;
    HOLDS(file == (smap_file *)&failed && is(&bytes, "kept"));
}

static int files_are_mapped(void) {
    char folder[] = P_tmpdir "/smap_test_XXXXXX";
    char path[100];
    long before = kept;
    all_hold = 1;
    HOLDS(mkdtemp(folder) != NULL);
    strcpy(path, in_folder(folder, "map"));
    refuses_file(path, ENOENT, "No such file or directory");
    refuses_file("", ENOENT, "No such file or directory");
    compiled_map_in(path);
    refuses_file(in_folder(path, "under"), ENOTDIR, "Not a directory");
    no_plain_files(folder);
    not_mapped("/sys/devices/system/cpu/online");
    empty_file(path);
    no_memory(path);
    HOLDS(unlink(path) == 0 && rmdir(folder) == 0 && kept == before);
    return all_hold;
}

/* An error has words, whatever its number is. */
static int has_words(void) {
    smap_fault fault = fault_of(SMAP_NO_FILE, 0, 7);
    smap_fault odd = fault_of(SMAP_NO_FILE, 0, 4294967295u), far = fault_of(SMAP_NO_FILE, 0, 4294967296u);
    char out[4] = "###";
    size_t len = smap_message(&fault, out, 2);
    return tells(&fault, 7, "Argument list too long") && len == 22 && memcmp(out, "Ar#", 3) == 0 && smap_message(&fault, NULL, 0) == 22 &&
           smap_message(&odd, NULL, 0) > 0 && smap_message(&far, NULL, 0) > 0;
}
#else
static int files_are_mapped(void) {
    smap_file *out = (smap_file *)&failed;
    smap_text bytes = text_of("kept");
    smap_fault fault = junk();
    return smap_map_file("/", &out, &bytes, &fault) == SMAP_NO_FILE && is_fault(&fault, SMAP_NO_FILE, 0) &&
           smap_map_file("/", &out, &bytes, NULL) == SMAP_NO_FILE && out == (smap_file *)&failed && is(&bytes, "kept");
}

static int has_words(void) {
    smap_fault fault = fault_of(SMAP_NO_FILE, 0, 7);
    return smap_message(&fault, NULL, 0) > 0;
}
#endif

void test_files(void) {
    CHECK(files_are_mapped());
    CHECK(has_words());
}

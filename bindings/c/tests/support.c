/* Memory that is refused and counted, and what tests of several subjects use. */
#include "tests.h"

long left = -1, kept;
int refuses_on;

#ifdef __cplusplus
extern "C" {
#endif
void *__real_malloc(size_t size);
void *__real_calloc(size_t count, size_t size);
void *__real_realloc(void *at, size_t size);
void __real_free(void *at);
void *__wrap_malloc(size_t size);
void *__wrap_calloc(size_t count, size_t size);
void *__wrap_realloc(void *at, size_t size);
void __wrap_free(void *at);
static void *counted(void *at) {
    kept += at != NULL;
    return at;
}
static int is_refused(void) {
    if (left < 0) return 0;
    if (left > 0) {
        left--;
        return 0;
    }
    if (!refuses_on) left = -1;
    return 1;
}
void *__wrap_malloc(size_t size) { return is_refused() ? NULL : counted(__real_malloc(size)); }
void *__wrap_calloc(size_t count, size_t size) { return is_refused() ? NULL : counted(__real_calloc(count, size)); }
void *__wrap_realloc(void *at, size_t size) {
    if (!at) return __wrap_malloc(size);
    return is_refused() ? NULL : __real_realloc(at, size);
}
void __wrap_free(void *at) {
    kept -= at != NULL;
    __real_free(at);
}
#ifdef __cplusplus
}
#endif

int passed, failed;

void check(int is_so, const char *file, int line, const char *condition) {
    if (is_so) passed++;
    else printf("%s:%d: %s\n", file, line, condition), failed++;
}

int is(const smap_text *text, const char *wanted) {
    return text->len == strlen(wanted) && memcmp(text->at, wanted, text->len) == 0;
}

smap_text text_of(const char *text) {
    smap_text it;
    it.at = text;
    it.len = text ? strlen(text) : 0;
    return it;
}

smap_position at(uint32_t line, uint32_t column) {
    smap_position it;
    it.line = line;
    it.column = column;
    return it;
}

smap_fault junk(void) {
    smap_fault fault;
    memset(&fault, 0x77, sizeof fault);
    return fault;
}

smap_fault fault_of(uint32_t code, uint32_t field, uint64_t detail) {
    smap_fault fault;
    memset(&fault, 0, sizeof fault);
    fault.code = code;
    fault.field = field;
    fault.detail = detail;
    return fault;
}

int has_no_place(const smap_fault *fault) {
    smap_fault none = fault_of(0, 0, 0);
    return memcmp(&fault->place, &none.place, sizeof none.place) == 0;
}

int is_none(const smap_fault *fault) {
    smap_fault none = fault_of(0, 0, 0);
    return memcmp(fault, &none, sizeof none) == 0;
}

int is_fault(const smap_fault *fault, uint32_t code, uint64_t detail) {
    return fault->code == code && fault->field == 0 && fault->detail == detail && has_no_place(fault);
}

smap_map *read_map(const char *json) {
    smap_map *map;
    smap_fault fault = junk();
    CHECK(smap_from_json_string(TEXT(json), &map, &fault) == SMAP_OK && is_none(&fault));
    return map;
}

int is_string(smap_string *string, const char *wanted) {
    smap_text text;
    int is_so = smap_get_text(string, &text) == SMAP_OK && is(&text, wanted);
    if (!is_so) printf("found  %.*s\nwanted %s\n", (int)text.len, text.at, wanted);
    smap_free_string(string);
    return is_so;
}

int writes(const smap_map *map, const char *wanted) {
    smap_string *string;
    return smap_to_json_string(map, &string, NULL) == SMAP_OK && is_string(string, wanted);
}

int made(smap_map *map, const char *wanted) {
    int is_so = writes(map, wanted);
    smap_free_map(map);
    return is_so;
}

smap_fault placed(uint32_t kind, uint32_t field, uint64_t text, uint64_t section, uint64_t line, uint64_t column,
                  uint64_t byte, uint64_t entry) {
    smap_fault fault = fault_of(SMAP_JSON_READING, 0, 0);
    fault.place.kind = kind;
    fault.place.field = field;
    fault.place.text = text;
    fault.place.section = section;
    fault.place.line = line;
    fault.place.column = column;
    fault.place.byte = byte;
    fault.place.entry = entry;
    return fault;
}

smap_token token_of(uint32_t dst_line, uint32_t dst_col, uint32_t src_line, uint32_t src_col, uint32_t source_id,
                    uint32_t name_id) {
    smap_token it;
    it.dst_line = dst_line;
    it.dst_col = dst_col;
    it.src_line = src_line;
    it.src_col = src_col;
    it.source_id = source_id;
    it.name_id = name_id;
    return it;
}

smap_map *map_at(const smap_position *positions, size_t len) {
    smap_token tokens[16];
    smap_text sources[1] = { text_of("a") };
    smap_map *map;
    for (uint32_t i = 0; i < len; i++) tokens[i] = token_of(positions[i].line, positions[i].column, i, 0, 0, SMAP_NO_ID);
    CHECK(smap_from_tokens(tokens, len, NULL, 0, LIST(sources), NULL, 0, NULL, 0, &map, NULL) == SMAP_OK);
    return map;
}

int is_same(const smap_original *p, const smap_original *q) {
    return p->kind == q->kind && p->index == q->index && memcmp(&p->token, &q->token, sizeof p->token) == 0 &&
           p->source.len == q->source.len && memcmp(p->source.at, q->source.at, p->source.len) == 0 && p->name.len == q->name.len &&
           memcmp(p->name.at, q->name.at, p->name.len) == 0;
}

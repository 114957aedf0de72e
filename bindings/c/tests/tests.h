/* What the files of the tests share. */
#include "oxc_sourcemap.h"

#include <stdio.h>
#include <stdlib.h>
#include <string.h>

/* The request number `left` from now on is refused, and none if it is negative; with `refuses_on` all after it are, too. `kept` counts
 * blocks that are not freed. */
extern long left, kept;
extern int refuses_on;

/* How many checks passed and failed. */
extern int passed, failed;
#define CHECK(condition) check(condition, __FILE__, __LINE__, #condition)
#define CHECK_ROW(condition, row, what) check(condition, __FILE__, row, what)
void check(int is_so, const char *file, int line, const char *condition);

#define LEN(array) (sizeof(array) / sizeof *(array))
/* The pointer and the length that a call takes. */
#define TEXT(text) (text), strlen(text)
#define LIST(array) (array), LEN(array)

#define MAX UINT32_MAX
#define NO SMAP_NO_ID
#define NONE SMAP_NOT_TOLD

int is(const smap_text *text, const char *wanted);
smap_text text_of(const char *text);
smap_position at(uint32_t line, uint32_t column);
/* What an output holds that nobody initialised. */
smap_fault junk(void);
smap_fault fault_of(uint32_t code, uint32_t field, uint64_t detail);
int has_no_place(const smap_fault *fault);
int is_none(const smap_fault *fault);
/* Whether a fault has this code and this number, and no field and no place. */
int is_fault(const smap_fault *fault, uint32_t code, uint64_t detail);
smap_map *read_map(const char *json);
/* Whether this is the text of a string, which is freed. */
int is_string(smap_string *string, const char *wanted);
int writes(const smap_map *map, const char *wanted);
/* The same for a map that is freed. */
int made(smap_map *map, const char *wanted);
/* A fault at a place by its numbers. */
smap_fault placed(uint32_t kind, uint32_t field, uint64_t text, uint64_t section, uint64_t line, uint64_t column,
                  uint64_t byte, uint64_t entry);
smap_token token_of(uint32_t dst_line, uint32_t dst_col, uint32_t src_line, uint32_t src_col, uint32_t source_id,
                    uint32_t name_id);
/* A map of tokens at these positions, each with its number as its source line. */
smap_map *map_at(const smap_position *positions, size_t len);
/* Whether two lookups answered the same, their texts compared byte for byte. */
int is_same(const smap_original *p, const smap_original *q);

#define A \
    "{\"version\":3,\"file\":\"out.js\",\"sourceRoot\":\"src/\",\"names\":[\"hi\",\"gr\xc3\xb6\xc3\x9f" "e\"]," \
    "\"sources\":[\"a.ts\",\"b.ts\"],\"sourcesContent\":[\"let hi;\",null],\"ignoreList\":[1]," \
    "\"mappings\":\"AAAA,GAASA,K;CCCTC\",\"debugId\":\"d-1\"}"
#define B "{\"version\":3,\"names\":[],\"sources\":[\"a.js\"],\"mappings\":\"AACA\"}"
#define C "{\"version\":3,\"names\":[],\"sources\":[\"a.ts\"],\"mappings\":\";AAEA\"}"
#define EMPTY "{\"version\":3,\"names\":[],\"sources\":[],\"mappings\":\"\"}"
#define OF_A(rest) "{\"version\":3,\"sources\":[\"a\"]," rest "}"
/* Behind a byte order mark and a prefix. */
#define MARKED "\xef\xbb\xbf)]}'\n{\"version\":3,\"sources\":[\"a.js\"],\"names\":null,\"mappings\":\"AAAA\"}"

/* Tokens of two sources, three of them at a column of source 1 and three at another, worked by hand. */
extern const smap_token REVERSED[6];

void test_errors(void);
void test_reading(void);
void test_holding(void);
void test_sharing(void);
void test_lookups(void);
void test_compiled(void);
void test_scopes(void);
void test_files(void);
void test_queries(void);
void test_making(void);
void test_building(void);
void test_writing(void);
void test_null_handles(void);
void test_memory(void);

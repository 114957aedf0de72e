/* What lib/native.d.ts says, for Node: Node-API over oxc_sourcemap.h, and no policy.
 *
 * A handle is an external of JavaScript over a Handle, which the garbage collector frees, or `free` before. Which of them are there the
 * Instance knows, and all calls but `trace` ask it. The numbers that calls answer stand in the memory of the Instance, over which JavaScript has two arrays:
 * so a call makes no object.
 *
 * What is lent to a call is a pointer into memory of JavaScript. It holds as long as no JavaScript runs: so what may run some (the
 * elements of an array) is read first. Memory that other threads may write is copied, but that of a compiled map, which nobody may write
 * while it is open. */

#ifndef ADDON_H
#define ADDON_H

/* Of Node-API 8, but for finalizers that run in the collector and not in a turn of the event loop, of which a loop without turns has
 * none. The other two give them the type that they have in the headers of each Node. */
#define NAPI_EXPERIMENTAL
#define NODE_API_EXPERIMENTAL_NOGC_ENV_OPT_OUT
#define NODE_API_EXPERIMENTAL_BASIC_ENV_OPT_OUT
#include <node_api.h>

#include <stdbool.h>
#include <stddef.h>
#include <stdint.h>

#include "oxc_sourcemap.h"

enum {
    WORDS = 16,
    SELECTED = 12, /* the place of the number of the handle that is selected, and of the question that `trace` asks */
    LINE = 13,
    COLUMN = 14,
    BIAS = 15,
    FAULT_WORDS = sizeof(smap_fault) / 4,
    MOST_ARGUMENTS = 8,
    MOST_OWNED = 2 * MOST_ARGUMENTS,
    SMALL = 1 << 16
};

/* A code that is none of the library's: the map is shared, and takes no change. */
enum { SHARED = 200 };

/* A map, and how many handles hold it, of one thread or of several. */
typedef struct Held {
    smap_map *map;
    size_t handles;
    uint32_t number; /* by which other threads find it, or 0 */
    struct Held *next;
} Held;

typedef enum { MAP, BUILDER, JOIN, COMPILED, SCOPES } Kind;

/* A compiled map, and the array of JavaScript in whose bytes it is open: they are not copied. */
typedef struct {
    smap_compiled *map;
    napi_ref array; /* keeps the bytes, but JavaScript may detach them from it or make it shorter */
    const void *at;
    size_t len;
    bool is_shared; /* with other threads: such memory is neither detached nor made shorter */
} Open;

struct Handle;

/* Addresses, in a table (registry.c). */
typedef struct {
    const void **at;
    size_t room;
    size_t count;
} Registry;

/* One for each environment: a thread of JavaScript. */
typedef struct {
    uint32_t *words;
    smap_fault *fault;
    const smap_map *asked; /* that which `trace` asks, of the handle that is selected; null of a compiled one */
    const struct Handle *selected;
    uint32_t last_number; /* of the handles that were selected */
    Registry handles;
    int64_t untold; /* how many bytes more handles hold than the collector knows of */
    void *numbers; /* the memory of `words` and `fault`, if it is ours */
    napi_ref keeps; /* that memory, if it is JavaScript's */
} Instance;

/* What it holds is null once it is freed. */
typedef struct Handle {
    Kind kind;
    uint32_t number; /* which handle was selected, or 0 */
    Instance *instance;
    Held *held;
    smap_mends *mends;
    smap_builder *builder;
    smap_join *join;
    Open open;
    smap_scopes *scopes;
    int64_t weight; /* the bytes that it holds, about */
} Handle;

/* A call from JavaScript: its arguments, what was copied for it, and whether it has thrown. */
typedef struct {
    napi_env env;
    Instance *instance;
    smap_fault *fault;
    uint32_t *words;
    napi_value in[MOST_ARGUMENTS];
    void *owned[MOST_OWNED];
    size_t owned_count;
    bool failed;
} Call;

/* ---- maps that threads share (sharing.c) ---- */

/* Frees the map, if it is refused. */
Held *new_held(smap_map *map);
void let_go(Held *held);

/* ---- which handles there are (registry.c) ---- */

bool is_listed(const Registry *it, const void *address);

/* Says whether there was memory for it. */
bool enlist(Registry *it, const void *address);
void unlist(Registry *it, const void *address);

/* ---- handles (handles.c) ---- */

/* The map of a handle, or null. */
const smap_map *map_in(const Handle *handle);

/* Counts what a handle holds more, or less. */
void tell(napi_env env, Handle *handle, int64_t more);

/* A new handle of this kind with nothing in it, or null. */
Handle *new_handle(Instance *instance, Kind kind);

/* The external of a handle, which frees it from here on. If there is none, it is freed now. */
napi_status external_of(napi_env env, Handle *it, napi_value *out);

/* A new handle that holds a map. */
napi_status map_value(napi_env env, Instance *instance, Held *held, smap_mends *mends, napi_value *out);

/* The handle of an external of ours; null of any other value. */
Handle *handle_of(Call *call, napi_value value);

Handle *handle_in(Call *call, napi_value value, Kind kind);
Handle *handle(Call *call, size_t i, Kind kind);
const smap_map *map(Call *call, size_t i);

/* A map to change, or null with the code why not. */
smap_map *own_map(Call *call, size_t i, uint32_t *code);

/* ---- what is looked up in (asked.c) ---- */

/* The compiled map of a handle; null if it was freed, or if its bytes are no longer where it is open. It holds until JavaScript runs. */
const smap_compiled *compiled_in(napi_env env, const Handle *handle);
const smap_compiled *compiled(Call *call, size_t i);

/* A map or a compiled one; null if it was freed. */
typedef struct {
    const smap_map *map;
    const smap_compiled *compiled;
    bool is_compiled;
} Asked;

Asked asked(Call *call, size_t i);
bool is_null(Asked it);

/* The calls that take either. Of a compiled map the fault is filled in here. */
uint32_t ask_token(Asked from, uint32_t index, smap_token *out);
uint32_t ask_text(Asked from, uint32_t which, uint32_t id, smap_text *out);
uint32_t ask_original(Asked from, const uint32_t *words, smap_original *out, smap_fault *fault);
uint32_t ask_originals(Asked from, const smap_position *at, size_t len, uint32_t bias, smap_original *out, smap_fault *fault);
uint32_t ask_indices(Asked from, const smap_position *at, size_t len, uint32_t bias, uint32_t *out, size_t out_len, smap_fault *fault);

/* ---- calls (calls.c) ---- */

/* Throws, unless something was thrown already. */
void fail(Call *call, const char *message);
void check(Call *call, napi_status status);

/* Memory for as long as the call lasts, of at least one byte; null if it is refused. */
void *room(Call *call, size_t bytes);
void *copied(Call *call, const void *from, size_t bytes);

napi_value number(Call *call, uint32_t it);

/* The code of a call that has filled in the fault, and of one that has none. */
napi_value coded(Call *call, uint32_t code);
napi_value coded_alone(Call *call, uint32_t code);

/* The code, of which the fault tells no more. */
uint32_t told(Call *call, uint32_t code);

/* ---- arguments (arguments.c) ---- */

uint32_t word(Call *call, size_t i);

/* A limit of bytes; without one as many as there may be. */
size_t limit_in(Call *call, size_t i);

typedef struct {
    const char *at;
    size_t len;
} Bytes;

Bytes text(Call *call, size_t i);
Bytes bytes(Call *call, size_t i);

/* The same, not copied if other threads may write there, which is told. */
Bytes lent_bytes(Call *call, size_t i, bool *is_shared);

/* Words that the call reads. */
typedef struct {
    const uint32_t *at;
    size_t len;
} Words;

Words words(Call *call, size_t i);

/* Where the call reads no words. */
extern const Words NO_WORDS;

/* Words that the call writes: to memory of its own if others may write there, or if it reads from there. */
typedef struct {
    uint32_t *at;
    size_t len;
    uint32_t *shown;
} Output;

Output output(Call *call, size_t i, Words reads);
void show(const Output *out);

/* A list of texts: two arguments, the bytes of all and the length of each. */
typedef struct {
    smap_text *at;
    size_t len;
} Texts;

Texts texts(Call *call, size_t i);

/* The maps of an array. Reading its elements may run JavaScript: so all are read before any is looked at, and before texts are lent. */
typedef struct {
    const smap_map **at;
    uint32_t len;
} Maps;

Maps maps(Call *call, size_t i);

/* Which text of a map. */
enum { NAME, SOURCE, CONTENT, FILE_NAME, SOURCE_ROOT, DEBUG_ID };

/* ---- answers (answers.c) ---- */

uint32_t at_most(size_t number);
napi_value map_or_code(Call *call, uint32_t code, smap_map *map);
napi_value string(Call *call, const char *at, size_t len);

/* The code of a call that has listed entries in the output, as many as fit, and how many there are. */
napi_value listed(Call *call, uint32_t code, const Output *out, size_t count);

/* A text that a handle lends, and one that the library made, which is freed, as a string or as bytes. */
napi_value text_or_code(Call *call, uint32_t code, smap_text it);
napi_value string_or_code(Call *call, uint32_t code, smap_string *made);
napi_value bytes_or_code(Call *call, uint32_t code, smap_string *made);

/* A copy of the bytes of a text that a handle lends. */
napi_value lent_bytes_or_code(Call *call, uint32_t code, smap_text it);

/* ---- the calls of each file ---- */

/* A call by its name. The last one of a table has none. */
typedef struct {
    const char *name;
    napi_value (*run)(Call *);
} Entry;

extern const Entry READING_CALLS[], READING_ASYNC_CALLS[], HANDLE_CALLS[], SHARING_CALLS[], INSPECTING_CALLS[], LOOKUP_CALLS[],
    CHANGING_CALLS[], MAKING_CALLS[], BUILDING_CALLS[], WRITING_CALLS[], COMPILED_CALLS[], SCOPES_CALLS[], MESSAGE_CALLS[];

/* The one call that is in no table (lookups.c), and what ends with its environment. */
napi_value trace(napi_env env, napi_callback_info info);
void leave(napi_env env);

#endif

/* Lookups. */
#include "addon.h"

#include <string.h>

enum { BLOCK = 512 }; /* lookups at once: their answers take 32 KiB of stack */

static napi_value select_map(Call *call)
{
    Handle *it = handle_of(call, call->in[0]);
    if (it == NULL || it->kind != COMPILED) it = handle(call, 0, MAP);
    if (it == NULL) return NULL;
    if (it->number == 0 && call->instance->last_number < UINT32_MAX) it->number = ++call->instance->last_number;
    call->instance->selected = it;
    call->instance->asked = map_in(it);
    call->words[SELECTED] = it->number;
    return NULL;
}

/* The environment that this thread was last in, and its instance: asking Node for it takes a fifth of the time of a lookup. */
static _Thread_local struct {
    napi_env env;
    Instance *instance;
} here;

static const Instance *instance_of(napi_env env)
{
    void *data = NULL;
    if (here.env == env) return here.instance;
    if (napi_get_instance_data(env, &data) != napi_ok) return NULL;
    here.env = env;
    here.instance = data;
    return data;
}

/* An environment is at its end; another one may take its address. */
void leave(napi_env env)
{
    if (here.env == env) here.env = NULL;
}

/* Where `trace` looks. */
static Asked selected(napi_env env, const Instance *it)
{
    const Handle *handle = it->selected;
    bool is_compiled = handle != NULL && handle->kind == COMPILED;
    return (Asked){it->asked, is_compiled ? compiled_in(env, handle) : NULL, is_compiled};
}

/* The one call that is made so often that its arguments are read from memory, and nothing is answered. */
napi_value trace(napi_env env, napi_callback_info info)
{
    napi_value out = NULL;
    smap_original found;
    const Instance *it = instance_of(env);
    (void)info;
    if (it == NULL) return NULL;
    uint32_t *words = it->words;
    uint32_t code = ask_original(selected(env, it), words, &found, it->fault);
    if (code == SMAP_OK)
        memcpy(words, &found, 32);
    else if (napi_create_uint32(env, code, &out) != napi_ok)
        napi_throw_type_error(env, NULL, "Node refuses the call");
    return out;
}

/* Looks up so many positions, at most BLOCK, and writes eight words for each. */
static uint32_t trace_block(Asked from, const smap_position *at, size_t len, uint32_t bias, uint32_t *out, smap_fault *fault)
{
    smap_original found[BLOCK];
    uint32_t code = ask_originals(from, at, len, bias, found, fault);
    for (size_t i = 0; code == SMAP_OK && i < len; i++) memcpy(out + 8 * i, &found[i], 32);
    return code;
}

static napi_value trace_all(Call *call)
{
    Asked from = asked(call, 0);
    Words positions = words(call, 1);
    uint32_t bias = word(call, 2);
    Output out = output(call, 3, positions);
    if (call->failed) return NULL;
    size_t count = positions.len / 2;
    if (positions.len % 2 != 0 || out.len != 8 * count) return coded_alone(call, is_null(from) ? SMAP_NULL_HANDLE : SMAP_LENGTHS);
    const smap_position *at = (const smap_position *)positions.at;
    uint32_t code = SMAP_OK;
    size_t done = 0;
    do {
        size_t len = count - done < BLOCK ? count - done : BLOCK;
        code = trace_block(from, at + done, len, bias, out.at + 8 * done, call->fault);
        done += len;
    } while (code == SMAP_OK && done < count);
    show(&out);
    return coded(call, code);
}

static napi_value find_all(Call *call)
{
    Asked from = asked(call, 0);
    Words positions = words(call, 1);
    uint32_t bias = word(call, 2);
    Output out = output(call, 3, positions);
    if (call->failed) return NULL;
    if (positions.len % 2 != 0) return coded_alone(call, is_null(from) ? SMAP_NULL_HANDLE : SMAP_LENGTHS);
    const smap_position *at = (const smap_position *)positions.at;
    uint32_t code = ask_indices(from, at, positions.len / 2, bias, out.at, out.len, call->fault);
    show(&out);
    return coded(call, code);
}

static napi_value pieces(Call *call)
{
    size_t count = 0;
    const smap_map *from = map(call, 0);
    smap_position start = {word(call, 1), word(call, 2)};
    smap_position finish = {word(call, 3), word(call, 4)};
    Output out = output(call, 5, NO_WORDS);
    if (call->failed) return NULL;
    uint32_t code = smap_pieces(from, start, finish, (smap_piece *)out.at, out.len / 5, &count);
    return listed(call, code, &out, count);
}

static napi_value first_difference(Call *call)
{
    const smap_map *one = map(call, 0);
    const smap_map *other = map(call, 1);
    if (call->failed) return NULL;
    return coded_alone(call, smap_first_difference(one, other, (smap_position *)call->words));
}

static napi_value generated(Call *call)
{
    const smap_map *from = map(call, 0);
    uint32_t source = word(call, 1);
    uint32_t line = word(call, 2);
    uint32_t column = word(call, 3);
    uint32_t direction = word(call, 4);
    smap_token token;
    uint32_t index = 0;
    if (call->failed) return NULL;
    uint32_t code = smap_generated(from, source, line, column, direction, &index, &token);
    if (code != SMAP_OK) return coded_alone(call, code);
    call->words[0] = index;
    memcpy(call->words + 1, &token, sizeof token);
    return coded(call, SMAP_OK);
}

static napi_value all_generated(Call *call)
{
    size_t count = 0;
    const smap_map *from = map(call, 0);
    uint32_t source = word(call, 1);
    uint32_t line = word(call, 2);
    uint32_t column = word(call, 3);
    uint32_t direction = word(call, 4);
    Output out = output(call, 5, NO_WORDS);
    if (call->failed) return NULL;
    uint32_t code = smap_all_generated(from, source, line, column, direction, out.at, out.len, &count);
    return listed(call, code, &out, count);
}

const Entry LOOKUP_CALLS[] = {
    {"select", select_map},
    {"traceAll", trace_all},
    {"findAll", find_all},
    {"pieces", pieces},
    {"firstDifference", first_difference},
    {"generated", generated},
    {"allGenerated", all_generated},
    {NULL, NULL},
};

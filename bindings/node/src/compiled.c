/* Compiled maps: made, and opened in bytes of JavaScript. */
#include "addon.h"

#include <stdlib.h>
#include <string.h>

enum { STAMP = 32 };

/* The stamp is 32 bytes, or none. */
static napi_value compile(Call *call)
{
    smap_string *out = NULL;
    const smap_map *from = map(call, 0);
    uint64_t length = word(call, 1) | (uint64_t)word(call, 2) << 32;
    Bytes stamp = bytes(call, 3);
    if (call->failed) return NULL;
    if (stamp.len != STAMP && stamp.len != 0) return coded_alone(call, from != NULL ? SMAP_LENGTHS : SMAP_NULL_HANDLE);
    const unsigned char *at = stamp.len == STAMP ? (const unsigned char *)stamp.at : NULL;
    uint32_t code = smap_compile(from, length, at, &out, call->fault);
    return bytes_or_code(call, code, out);
}

/* The external over a compiled map, which keeps the array of its bytes. */
static napi_value open_value(Call *call, Open open)
{
    napi_value out = NULL;
    Handle *it = new_handle(call->instance, COMPILED);
    if (it == NULL || napi_create_reference(call->env, call->in[0], 1, &open.array) != napi_ok) {
        smap_free_compiled(open.map);
        free(it);
        fail(call, "Node refuses the call");
        return NULL;
    }
    it->open = open;
    check(call, external_of(call->env, it, &out));
    return out;
}

static napi_value open_compiled(Call *call)
{
    Open it = {0};
    Bytes given = lent_bytes(call, 0, &it.is_shared);
    if (call->failed) return NULL;
    it.at = given.at;
    it.len = given.len;
    uint32_t code = smap_open_compiled((const unsigned char *)given.at, given.len, &it.map, call->fault);
    return code != SMAP_OK ? coded(call, code) : open_value(call, it);
}

static napi_value compiled_counts(Call *call)
{
    smap_compiled_counts it;
    const smap_compiled *from = compiled(call, 0);
    if (call->failed) return NULL;
    uint32_t code = smap_compiled_get_counts(from, &it);
    if (code == SMAP_OK) memcpy(call->words, &it, sizeof it);
    return coded_alone(call, code);
}

static napi_value stamp(Call *call)
{
    smap_text out = {NULL, 0};
    const smap_compiled *from = compiled(call, 0);
    if (call->failed) return NULL;
    uint32_t code = told(call, smap_compiled_get_stamp(from, &out));
    return lent_bytes_or_code(call, code, out);
}

static napi_value is_ignored(Call *call)
{
    const smap_compiled *from = compiled(call, 0);
    uint32_t id = word(call, 1);
    if (call->failed) return NULL;
    return coded_alone(call, smap_compiled_is_ignored(from, id, &call->words[0]));
}

static napi_value decompile(Call *call)
{
    smap_map *out = NULL;
    const smap_compiled *from = compiled(call, 0);
    if (call->failed) return NULL;
    uint32_t code = smap_decompile(from, &out, call->fault);
    return map_or_code(call, code, out);
}

const Entry COMPILED_CALLS[] = {
    {"compile", compile},
    {"openCompiled", open_compiled},
    {"compiledCounts", compiled_counts},
    {"stamp", stamp},
    {"isIgnored", is_ignored},
    {"decompile", decompile},
    {NULL, NULL},
};

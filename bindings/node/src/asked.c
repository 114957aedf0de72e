/* What is looked up in: a map, or a compiled one. */
#include "addon.h"

/* The bytes are compared with where they were, as JavaScript may have detached their buffer, or made it shorter, since the last call. */
const smap_compiled *compiled_in(napi_env env, const Handle *handle)
{
    const Open *it = &handle->open;
    napi_value array;
    void *at = NULL;
    size_t len = 0;
    if (it->map == NULL || it->is_shared) return it->map;
    if (napi_get_reference_value(env, it->array, &array) != napi_ok || array == NULL) return NULL;
    if (napi_get_typedarray_info(env, array, NULL, &len, &at, NULL, NULL) != napi_ok) return NULL;
    return at == it->at && len == it->len ? it->map : NULL;
}

const smap_compiled *compiled(Call *call, size_t i)
{
    const Handle *it = handle(call, i, COMPILED);
    return it != NULL ? compiled_in(call->env, it) : NULL;
}

Asked asked(Call *call, size_t i)
{
    const Handle *it = handle_of(call, call->in[i]);
    bool is_compiled = it != NULL && it->kind == COMPILED;
    if (is_compiled) return (Asked){NULL, compiled_in(call->env, it), true};
    return (Asked){map(call, i), NULL, false};
}

bool is_null(Asked it) { return it.map == NULL && it.compiled == NULL; }

uint32_t ask_token(Asked from, uint32_t index, smap_token *out)
{
    return from.is_compiled ? smap_compiled_get_token(from.compiled, index, out) : smap_get_token(from.map, index, out);
}

static uint32_t text_of_map(const smap_map *map, uint32_t which, uint32_t id, smap_text *out)
{
    switch (which) {
    case NAME: return smap_get_name(map, id, out);
    case SOURCE: return smap_get_source(map, id, out);
    case CONTENT: return smap_get_source_content(map, id, out);
    case FILE_NAME: return smap_get_file(map, out);
    case SOURCE_ROOT: return smap_get_source_root(map, out);
    case DEBUG_ID: return smap_get_debug_id(map, out);
    default: return SMAP_BAD_OPTION;
    }
}

uint32_t ask_text(Asked from, uint32_t which, uint32_t id, smap_text *out)
{
    return from.is_compiled ? smap_compiled_get_text(from.compiled, which, id, out) : text_of_map(from.map, which, id, out);
}

/* The code of a call that tells no more of its fault. */
static uint32_t coded_in(uint32_t code, smap_fault *fault)
{
    if (code != SMAP_OK) *fault = (smap_fault){.code = code};
    return code;
}

uint32_t ask_original(Asked from, const uint32_t *words, smap_original *out, smap_fault *fault)
{
    if (!from.is_compiled) return smap_trace(from.map, words[LINE], words[COLUMN], words[BIAS], out, fault);
    return coded_in(smap_compiled_trace(from.compiled, words[LINE], words[COLUMN], words[BIAS], out), fault);
}

uint32_t ask_originals(Asked from, const smap_position *at, size_t len, uint32_t bias, smap_original *out, smap_fault *fault)
{
    if (!from.is_compiled) return smap_trace_all(from.map, at, len, bias, out, len, fault);
    return coded_in(smap_compiled_trace_all(from.compiled, at, len, bias, out, len), fault);
}

uint32_t ask_indices(Asked from, const smap_position *at, size_t len, uint32_t bias, uint32_t *out, size_t out_len, smap_fault *fault)
{
    if (!from.is_compiled) return smap_find_all(from.map, at, len, bias, out, out_len, fault);
    return coded_in(smap_compiled_find_all(from.compiled, at, len, bias, out, out_len), fault);
}

/* Changing a map. */
#include "addon.h"

/* A change may make a map larger: the collector is told what it holds now. */
static napi_value changed(Call *call, uint32_t code)
{
    smap_counts counts = {0};
    Handle *it = handle(call, 0, MAP);
    if (it != NULL && smap_get_counts(map_in(it), &counts) == SMAP_OK)
        tell(call->env, it, (int64_t)counts.bytes - it->weight);
    return coded(call, code);
}

static uint32_t set_one(smap_map *map, uint32_t which, Bytes it, smap_fault *fault)
{
    switch (which) {
    case FILE_NAME: return smap_set_file(map, it.at, it.len, fault);
    case SOURCE_ROOT: return smap_set_source_root(map, it.at, it.len, fault);
    case DEBUG_ID: return smap_set_debug_id(map, it.at, it.len, fault);
    default: *fault = (smap_fault){.code = SMAP_BAD_OPTION}; return SMAP_BAD_OPTION;
    }
}

static napi_value set_one_text(Call *call)
{
    uint32_t code;
    smap_map *to = own_map(call, 0, &code);
    uint32_t which = word(call, 1);
    Bytes it = text(call, 2);
    if (call->failed) return NULL;
    return code != SMAP_OK ? coded(call, code) : changed(call, set_one(to, which, it, call->fault));
}

static uint32_t set_all(smap_map *map, uint32_t which, Texts all, smap_fault *fault)
{
    switch (which) {
    case SOURCE: return smap_set_sources(map, all.at, all.len, fault);
    case CONTENT: return smap_set_source_contents(map, all.at, all.len, fault);
    default: *fault = (smap_fault){.code = SMAP_BAD_OPTION}; return SMAP_BAD_OPTION;
    }
}

static napi_value set_all_texts(Call *call)
{
    uint32_t code;
    smap_map *to = own_map(call, 0, &code);
    uint32_t which = word(call, 1);
    Texts all = texts(call, 2);
    if (call->failed) return NULL;
    return code != SMAP_OK ? coded(call, code) : changed(call, set_all(to, which, all, call->fault));
}

static napi_value set_ignore_list(Call *call)
{
    uint32_t code;
    smap_map *to = own_map(call, 0, &code);
    Words ids = words(call, 1);
    if (call->failed) return NULL;
    return code != SMAP_OK ? coded(call, code) : changed(call, smap_set_ignore_list(to, ids.at, ids.len, call->fault));
}

typedef uint32_t Changes(smap_map *, smap_fault *);

static napi_value changes(Call *call, Changes *change)
{
    uint32_t code;
    smap_map *it = own_map(call, 0, &code);
    if (call->failed) return NULL;
    return code != SMAP_OK ? coded(call, code) : changed(call, change(it, call->fault));
}
static napi_value index_sources(Call *call) { return changes(call, smap_index_sources); }
static napi_value apply_source_root(Call *call) { return changes(call, smap_apply_source_root); }
static napi_value sort(Call *call) { return changes(call, smap_sort); }
static napi_value simplify(Call *call) { return changes(call, smap_simplify); }

const Entry CHANGING_CALLS[] = {
    {"setText", set_one_text},
    {"setTexts", set_all_texts},
    {"setIgnoreList", set_ignore_list},
    {"indexSources", index_sources},
    {"applySourceRoot", apply_source_root},
    {"sort", sort},
    {"simplify", simplify},
    {NULL, NULL},
};

/* Maps of maps. */
#include "addon.h"

static napi_value compose(Call *call)
{
    smap_map *out = NULL;
    const smap_map *from = map(call, 0);
    const smap_map *input = map(call, 1);
    if (call->failed) return NULL;
    uint32_t code = smap_compose(from, input, &out, call->fault);
    return map_or_code(call, code, out);
}

static napi_value remap(Call *call)
{
    smap_map *out = NULL;
    Maps inputs = maps(call, 3);
    const smap_map *from = map(call, 0);
    Texts paths = call->failed ? (Texts){NULL, 0} : texts(call, 1);
    if (call->failed) return NULL;
    uint32_t code = smap_remap(from, paths.at, paths.len, inputs.at, inputs.len, &out, call->fault);
    return map_or_code(call, code, out);
}

static napi_value join_all(Call *call)
{
    smap_map *out = NULL;
    Maps parts = maps(call, 0);
    Words positions = words(call, 1);
    if (call->failed) return NULL;
    if (positions.len % 2 != 0) return coded_alone(call, SMAP_LENGTHS);
    const smap_position *at = (const smap_position *)positions.at;
    uint32_t code = smap_join_all(parts.at, parts.len, at, positions.len / 2, &out, call->fault);
    return map_or_code(call, code, out);
}

static napi_value evaluate(Call *call)
{
    smap_map *out = NULL;
    Texts said = texts(call, 0);
    Texts given = texts(call, 2);
    if (call->failed) return NULL;
    uint32_t code = smap_evaluate(said.at, said.len, given.at, given.len, &out, call->fault);
    return map_or_code(call, code, out);
}

const Entry MAKING_CALLS[] = {
    {"compose", compose},
    {"remap", remap},
    {"joinAll", join_all},
    {"evaluate", evaluate},
    {NULL, NULL},
};

/* Maps that are built or joined call by call. */
#include "addon.h"

static napi_value join_new(Call *call)
{
    napi_value out = NULL;
    Handle *it = new_handle(call->instance, JOIN);
    if (it == NULL) fail(call, "No memory for the call");
    if (call->failed) return NULL;
    uint32_t code = smap_join_new(&it->join, call->fault);
    check(call, external_of(call->env, it, &out));
    return code != SMAP_OK ? coded(call, code) : out;
}

static napi_value join_add(Call *call)
{
    Handle *it = handle(call, 0, JOIN);
    const smap_map *part = map(call, 1);
    uint32_t line = word(call, 2);
    uint32_t column = word(call, 3);
    smap_counts counts = {0};
    if (call->failed) return NULL;
    uint32_t code = smap_join_add(it->join, part, line, column, call->fault);
    if (code == SMAP_OK && smap_get_counts(part, &counts) == SMAP_OK) tell(call->env, it, (int64_t)counts.bytes);
    return coded(call, code);
}

static napi_value join_finish(Call *call)
{
    smap_map *out = NULL;
    Handle *it = handle(call, 0, JOIN);
    if (call->failed) return NULL;
    uint32_t code = smap_join_finish(it->join, &out, call->fault);
    if (code == SMAP_OK) tell(call->env, it, -it->weight);
    return map_or_code(call, code, out);
}

static napi_value builder_new(Call *call)
{
    napi_value out = NULL;
    Handle *it = new_handle(call->instance, BUILDER);
    if (it == NULL) fail(call, "No memory for the call");
    if (call->failed) return NULL;
    uint32_t code = smap_builder_new(&it->builder, call->fault);
    check(call, external_of(call->env, it, &out));
    return code != SMAP_OK ? coded(call, code) : out;
}

static napi_value builder_add_name(Call *call)
{
    Handle *it = handle(call, 0, BUILDER);
    Bytes name = text(call, 1);
    if (call->failed) return NULL;
    uint32_t code = smap_builder_add_name(it->builder, name.at, name.len, call->words, call->fault);
    if (code == SMAP_OK) tell(call->env, it, (int64_t)name.len);
    return coded(call, code);
}

static napi_value builder_add_source(Call *call)
{
    Handle *it = handle(call, 0, BUILDER);
    Bytes path = text(call, 1);
    Bytes content = {NULL, 0};
    napi_valuetype type = napi_null;
    check(call, napi_typeof(call->env, call->in[2], &type));
    if (type != napi_null) content = text(call, 2);
    if (call->failed) return NULL;
    uint32_t code = type == napi_null ? smap_builder_add_source(it->builder, path.at, path.len, call->words, call->fault)
                                      : smap_builder_add_source_and_content(it->builder, path.at, path.len, content.at, content.len,
                                                                            call->words, call->fault);
    if (code == SMAP_OK) tell(call->env, it, (int64_t)(path.len + content.len));
    return coded(call, code);
}

static napi_value builder_add_tokens(Call *call)
{
    Handle *it = handle(call, 0, BUILDER);
    Words tokens = words(call, 1);
    if (call->failed) return NULL;
    if (tokens.len % 6 != 0) return coded_alone(call, it->builder != NULL ? SMAP_LENGTHS : SMAP_NULL_HANDLE);
    uint32_t code = smap_builder_add_tokens(it->builder, (const smap_token *)tokens.at, tokens.len / 6, call->fault);
    if (code == SMAP_OK) tell(call->env, it, (int64_t)(4 * tokens.len));
    return coded(call, code);
}

static napi_value builder_set_file(Call *call)
{
    const Handle *it = handle(call, 0, BUILDER);
    Bytes file = text(call, 1);
    if (call->failed) return NULL;
    return coded(call, smap_builder_set_file(it->builder, file.at, file.len, call->fault));
}

static napi_value builder_finish(Call *call)
{
    smap_map *out = NULL;
    Handle *it = handle(call, 0, BUILDER);
    if (call->failed) return NULL;
    uint32_t code = smap_builder_finish(it->builder, &out, call->fault);
    if (code == SMAP_OK) tell(call->env, it, -it->weight);
    return map_or_code(call, code, out);
}

const Entry BUILDING_CALLS[] = {
    {"joinNew", join_new},
    {"joinAdd", join_add},
    {"joinFinish", join_finish},
    {"builderNew", builder_new},
    {"builderAddName", builder_add_name},
    {"builderAddSource", builder_add_source},
    {"builderAddTokens", builder_add_tokens},
    {"builderSetFile", builder_set_file},
    {"builderFinish", builder_finish},
    {NULL, NULL},
};

/* The scopes of maps: read, and looked up in. */
#include "addon.h"

#include <string.h>

enum {
    SPAN = 96, /* a scope or a range takes about so many bytes */
    FRAME_WORDS = sizeof(smap_frame) / 4,
    CHAIN_ENTRY_WORDS = sizeof(smap_chain_entry) / 4
};

static const smap_scopes *scopes(Call *call, size_t i)
{
    const Handle *it = handle(call, i, SCOPES);
    return it != NULL ? it->scopes : NULL;
}

/* The external over scopes that a call has made. */
static napi_value scopes_or_code(Call *call, uint32_t code, smap_scopes *made)
{
    napi_value out = NULL;
    smap_scopes_counts counts = {0};
    if (code != SMAP_OK) return coded(call, code);
    Handle *it = new_handle(call->instance, SCOPES);
    if (it == NULL)
        smap_free_scopes(made);
    else
        it->scopes = made;
    check(call, external_of(call->env, it, &out));
    if (call->failed) return NULL;
    smap_scopes_get_counts(made, &counts);
    tell(call->env, it, SPAN * (int64_t)(counts.scopes + counts.ranges));
    return out;
}

static napi_value read_scopes(Call *call)
{
    smap_scopes *out = NULL;
    Bytes json = text(call, 0);
    if (call->failed) return NULL;
    uint32_t code = smap_read_scopes(json.at, json.len, &out, call->fault);
    return scopes_or_code(call, code, out);
}

static napi_value decode_scopes(Call *call)
{
    smap_scopes *out = NULL;
    Bytes given = text(call, 0);
    uint32_t names = word(call, 1);
    if (call->failed) return NULL;
    uint32_t code = smap_decode_scopes(given.at, given.len, names, &out, call->fault);
    return scopes_or_code(call, code, out);
}

static napi_value scopes_counts(Call *call)
{
    smap_scopes_counts it;
    const smap_scopes *from = scopes(call, 0);
    if (call->failed) return NULL;
    uint32_t code = smap_scopes_get_counts(from, &it);
    if (code == SMAP_OK) memcpy(call->words, &it, sizeof it);
    return coded_alone(call, code);
}

static napi_value get_scope(Call *call)
{
    const smap_scopes *from = scopes(call, 0);
    uint32_t index = word(call, 1);
    if (call->failed) return NULL;
    return coded_alone(call, smap_get_scope(from, index, (smap_scope *)call->words));
}

static napi_value get_range(Call *call)
{
    const smap_scopes *from = scopes(call, 0);
    uint32_t index = word(call, 1);
    if (call->failed) return NULL;
    return coded_alone(call, smap_get_range(from, index, (smap_range *)call->words));
}

typedef uint32_t Finds(const smap_scopes *, uint32_t, uint32_t, uint32_t, uint32_t *);

static napi_value found_at(Call *call, Finds *find)
{
    const smap_scopes *from = scopes(call, 0);
    uint32_t source = word(call, 1);
    uint32_t line = word(call, 2);
    uint32_t column = word(call, 3);
    if (call->failed) return NULL;
    return coded_alone(call, find(from, source, line, column, &call->words[0]));
}
static napi_value scope_at(Call *call) { return found_at(call, smap_scope_at); }
static napi_value function_at(Call *call) { return found_at(call, smap_function_at); }

static napi_value range_at(Call *call)
{
    const smap_scopes *from = scopes(call, 0);
    uint32_t line = word(call, 1);
    uint32_t column = word(call, 2);
    if (call->failed) return NULL;
    return coded_alone(call, smap_range_at(from, line, column, &call->words[0]));
}

static napi_value frames_at(Call *call)
{
    size_t count = 0;
    uint32_t is_hidden = 0;
    const smap_scopes *from = scopes(call, 0);
    uint32_t line = word(call, 1);
    uint32_t column = word(call, 2);
    Output out = output(call, 3, NO_WORDS);
    if (call->failed) return NULL;
    uint32_t code = smap_frames_at(from, line, column, (smap_frame *)out.at, out.len / FRAME_WORDS, &count, &is_hidden);
    call->words[1] = is_hidden;
    return listed(call, code, &out, count);
}

static napi_value get_variables(Call *call)
{
    size_t count = 0;
    const smap_scopes *from = scopes(call, 0);
    uint32_t scope = word(call, 1);
    Output out = output(call, 2, NO_WORDS);
    if (call->failed) return NULL;
    uint32_t code = smap_get_variables(from, scope, out.at, out.len, &count);
    return listed(call, code, &out, count);
}

static napi_value value_at(Call *call)
{
    const smap_scopes *from = scopes(call, 0);
    uint32_t range = word(call, 1);
    uint32_t variable = word(call, 2);
    uint32_t line = word(call, 3);
    uint32_t column = word(call, 4);
    if (call->failed) return NULL;
    return coded_alone(call, smap_value_at(from, range, variable, line, column, &call->words[0]));
}

static napi_value scope_chain_at(Call *call)
{
    size_t count = 0;
    const smap_scopes *from = scopes(call, 0);
    uint32_t line = word(call, 1);
    uint32_t column = word(call, 2);
    Output out = output(call, 3, NO_WORDS);
    if (call->failed) return NULL;
    uint32_t code = smap_scope_chain_at(from, line, column, (smap_chain_entry *)out.at, out.len / CHAIN_ENTRY_WORDS, &count);
    return listed(call, code, &out, count);
}

static napi_value scope_chain(Call *call)
{
    size_t count = 0;
    const smap_scopes *from = scopes(call, 0);
    uint32_t frame = word(call, 1);
    uint32_t line = word(call, 2);
    uint32_t column = word(call, 3);
    Output out = output(call, 4, NO_WORDS);
    if (call->failed) return NULL;
    uint32_t code = smap_scope_chain(from, frame, line, column, (smap_chain_entry *)out.at, out.len / CHAIN_ENTRY_WORDS, &count);
    return listed(call, code, &out, count);
}

const Entry SCOPES_CALLS[] = {
    {"readScopes", read_scopes},
    {"decodeScopes", decode_scopes},
    {"scopesCounts", scopes_counts},
    {"getScope", get_scope},
    {"getRange", get_range},
    {"scopeAt", scope_at},
    {"functionAt", function_at},
    {"rangeAt", range_at},
    {"framesAt", frames_at},
    {"getVariables", get_variables},
    {"valueAt", value_at},
    {"scopeChainAt", scope_chain_at},
    {"scopeChain", scope_chain},
    {NULL, NULL},
};

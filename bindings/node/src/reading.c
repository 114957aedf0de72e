/* Reading maps on the thread of the call. */
#include "addon.h"

#include <string.h>

static napi_value from_json(Call *call)
{
    smap_map *out = NULL;
    Bytes json = text(call, 0);
    if (call->failed) return NULL;
    uint32_t code = smap_from_json_string(json.at, json.len, &out, call->fault);
    return map_or_code(call, code, out);
}

static napi_value read_found(Call *call)
{
    smap_map *out = NULL;
    smap_mends *mends = NULL;
    napi_value value = NULL;
    Bytes found = text(call, 0);
    if (call->failed) return NULL;
    uint32_t code = smap_read_found(found.at, found.len, &out, &mends, call->fault);
    if (code != SMAP_OK) return coded(call, code);
    check(call, map_value(call->env, call->instance, new_held(out), mends, &value));
    return value;
}

static napi_value get_mends(Call *call)
{
    const Handle *it = handle(call, 0, MAP);
    Output out = output(call, 1, NO_WORDS);
    size_t count = 0;
    if (call->failed) return NULL;
    size_t fits = out.len / 6;
    smap_mend *mends = room(call, fits * sizeof *mends);
    if (mends == NULL) return NULL;
    uint32_t code = smap_get_mends(it->mends, mends, fits, &count);
    size_t written = count < fits ? count : fits;
    if (code == SMAP_OK && written > 0) memcpy(out.at, mends, written * sizeof *mends);
    show(&out);
    call->words[0] = (uint32_t)count;
    return coded_alone(call, code);
}

static napi_value from_tokens(Call *call)
{
    smap_map *out = NULL;
    Words tokens = words(call, 0);
    Texts names = texts(call, 1);
    Texts sources = texts(call, 3);
    Texts contents = texts(call, 5);
    Words ignored = words(call, 7);
    if (call->failed) return NULL;
    if (tokens.len % 6 != 0) return coded_alone(call, SMAP_LENGTHS);
    uint32_t code = smap_from_tokens((const smap_token *)tokens.at, tokens.len / 6, names.at, names.len, sources.at, sources.len,
                                     contents.at, contents.len, ignored.at, ignored.len, &out, call->fault);
    return map_or_code(call, code, out);
}

static napi_value decode_mappings(Call *call)
{
    smap_map *out = NULL;
    Bytes mappings = text(call, 0);
    uint32_t names = word(call, 1);
    uint32_t sources = word(call, 2);
    if (call->failed) return NULL;
    uint32_t code = smap_decode_mappings(mappings.at, mappings.len, names, sources, &out, call->fault);
    return map_or_code(call, code, out);
}

static napi_value decode_tokens(Call *call)
{
    smap_map *made = NULL;
    size_t count = 0;
    Bytes mappings = text(call, 0);
    uint32_t names = word(call, 1);
    uint32_t sources = word(call, 2);
    Output out = output(call, 3, NO_WORDS);
    if (call->failed) return NULL;
    uint32_t code = smap_decode_mappings(mappings.at, mappings.len, names, sources, &made, call->fault);
    if (code != SMAP_OK) return coded(call, code);
    smap_get_tokens(made, (smap_token *)out.at, out.len / 6, &count);
    show(&out);
    call->words[0] = at_most(count);
    smap_is_sorted(made, &call->words[1]);
    smap_free_map(made);
    return coded(call, code);
}

static napi_value clone(Call *call)
{
    smap_map *out = NULL;
    const smap_map *it = map(call, 0);
    if (call->failed) return NULL;
    uint32_t code = smap_clone(it, &out, call->fault);
    return map_or_code(call, code, out);
}

const Entry READING_CALLS[] = {
    {"fromJson", from_json},
    {"readFound", read_found},
    {"getMends", get_mends},
    {"fromTokens", from_tokens},
    {"decodeMappings", decode_mappings},
    {"decodeTokens", decode_tokens},
    {"clone", clone},
    {NULL, NULL},
};

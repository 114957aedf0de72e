/* What a map holds. */
#include "addon.h"

static napi_value get_counts(Call *call)
{
    smap_counts it = {0};
    const smap_map *from = map(call, 0);
    if (call->failed) return NULL;
    uint32_t code = smap_get_counts(from, &it);
    const size_t counts[] = {it.tokens, it.names, it.sources, it.source_contents, it.ignore_list, it.lines};
    for (size_t i = 0; i < 6; i++) call->words[i] = at_most(counts[i]);
    call->words[6] = (uint32_t)it.bytes;
    call->words[7] = (uint32_t)((uint64_t)it.bytes >> 32);
    return coded_alone(call, code);
}

typedef uint32_t Asks(const smap_map *, uint32_t *);

static napi_value asks(Call *call, Asks *ask)
{
    const smap_map *it = map(call, 0);
    return call->failed ? NULL : coded_alone(call, ask(it, &call->words[0]));
}
static napi_value is_sorted(Call *call) { return asks(call, smap_is_sorted); }
static napi_value is_sound(Call *call) { return asks(call, smap_is_sound); }

static napi_value get_text(Call *call)
{
    smap_text out = {NULL, 0};
    Asked from = asked(call, 0);
    uint32_t which = word(call, 1);
    uint32_t id = word(call, 2);
    if (call->failed) return NULL;
    uint32_t code = told(call, ask_text(from, which, id, &out));
    return text_or_code(call, code, out);
}

static uint32_t texts_at(const smap_map *map, uint32_t which, smap_text *out, size_t len, size_t *count)
{
    switch (which) {
    case NAME: return smap_get_names(map, out, len, count);
    case SOURCE: return smap_get_sources(map, out, len, count);
    case CONTENT: return smap_get_source_contents(map, out, len, count);
    default: return SMAP_BAD_OPTION;
    }
}

/* Sets an element to a text, or to null where it is not known. */
static void set_text(Call *call, napi_value list, uint32_t i, smap_text it)
{
    napi_handle_scope scope;
    napi_value value = NULL;
    check(call, napi_open_handle_scope(call->env, &scope));
    if (call->failed) return;
    if (it.at != NULL)
        value = string(call, it.at, it.len);
    else
        check(call, napi_get_null(call->env, &value));
    if (!call->failed) check(call, napi_set_element(call->env, list, i, value));
    napi_close_handle_scope(call->env, scope);
}

static napi_value get_texts(Call *call)
{
    size_t count = 0;
    napi_value list = NULL;
    const smap_map *from = map(call, 0);
    uint32_t which = word(call, 1);
    if (call->failed) return NULL;
    uint32_t code = texts_at(from, which, NULL, 0, &count);
    if (code != SMAP_OK) return coded_alone(call, code);
    smap_text *all = room(call, count * sizeof *all);
    if (all == NULL) return NULL;
    code = texts_at(from, which, all, count, &count);
    if (code != SMAP_OK) return coded_alone(call, code);
    check(call, napi_create_array_with_length(call->env, count, &list));
    for (size_t i = 0; !call->failed && i < count; i++) set_text(call, list, (uint32_t)i, all[i]);
    return list;
}

static napi_value get_token(Call *call)
{
    Asked from = asked(call, 0);
    uint32_t index = word(call, 1);
    if (call->failed) return NULL;
    return coded_alone(call, ask_token(from, index, (smap_token *)call->words));
}

static napi_value get_tokens(Call *call)
{
    size_t count = 0;
    const smap_map *from = map(call, 0);
    Output out = output(call, 1, NO_WORDS);
    if (call->failed) return NULL;
    uint32_t code = smap_get_tokens(from, (smap_token *)out.at, out.len / 6, &count);
    return listed(call, code, &out, count);
}

static napi_value get_ignore_list(Call *call)
{
    size_t count = 0;
    const smap_map *from = map(call, 0);
    Output out = output(call, 1, NO_WORDS);
    if (call->failed) return NULL;
    uint32_t code = smap_get_ignore_list(from, out.at, out.len, &count);
    return listed(call, code, &out, count);
}

const Entry INSPECTING_CALLS[] = {
    {"getCounts", get_counts},
    {"isSorted", is_sorted},
    {"isSound", is_sound},
    {"text", get_text},
    {"texts", get_texts},
    {"getToken", get_token},
    {"getTokens", get_tokens},
    {"getIgnoreList", get_ignore_list},
    {NULL, NULL},
};

/* What calls answer: maps, texts and numbers. */
#include "addon.h"

#include <string.h>

uint32_t at_most(size_t number) { return number < UINT32_MAX ? (uint32_t)number : UINT32_MAX; }

napi_value map_or_code(Call *call, uint32_t code, smap_map *map)
{
    napi_value out = NULL;
    if (code != SMAP_OK) return coded(call, code);
    check(call, map_value(call->env, call->instance, new_held(map), NULL, &out));
    return out;
}

static bool is_ascii(const char *at, size_t len)
{
    uint64_t bits = 0;
    size_t i = 0;
    for (; i + 8 <= len; i += 8) {
        uint64_t eight;
        memcpy(&eight, at + i, 8);
        bits |= eight;
    }
    for (; i < len; i++) bits |= (unsigned char)at[i];
    return (bits & 0x8080808080808080u) == 0;
}

napi_value string(Call *call, const char *at, size_t len)
{
    napi_value out = NULL;
    napi_status status = is_ascii(at, len) ? napi_create_string_latin1(call->env, at, len, &out)
                                           : napi_create_string_utf8(call->env, at, len, &out);
    if (status != napi_ok) fail(call, "The text is too long for a string");
    return out;
}

/* A text that a handle lends. */
napi_value text_or_code(Call *call, uint32_t code, smap_text it)
{
    return code != SMAP_OK ? coded(call, code) : string(call, it.at, it.len);
}

/* A text that the library made, which is freed. */
napi_value string_or_code(Call *call, uint32_t code, smap_string *made)
{
    smap_text it;
    if (code != SMAP_OK) return coded(call, code);
    code = told(call, smap_get_text(made, &it));
    napi_value out = code != SMAP_OK ? number(call, code) : string(call, it.at, it.len);
    smap_free_string(made);
    return out;
}

/* (of what did not fit, the number alone is told) */
napi_value listed(Call *call, uint32_t code, const Output *out, size_t count)
{
    show(out);
    call->words[0] = at_most(count);
    return coded_alone(call, code);
}

/* Bytes that a handle lends. They are copied: what frees a buffer over other memory waits for a turn of the event loop. */
napi_value lent_bytes_or_code(Call *call, uint32_t code, smap_text it)
{
    napi_value out = NULL;
    if (code != SMAP_OK) return coded(call, code);
    check(call, napi_create_buffer_copy(call->env, it.len, it.at, NULL, &out));
    return out;
}

/* The bytes of a text that the library made, which is freed. */
napi_value bytes_or_code(Call *call, uint32_t code, smap_string *made)
{
    smap_text it;
    if (code != SMAP_OK) return coded(call, code);
    code = told(call, smap_get_text(made, &it));
    napi_value out = lent_bytes_or_code(call, code, it);
    smap_free_string(made);
    return out;
}

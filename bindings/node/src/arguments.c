/* Arguments: numbers, typed arrays, texts, and lists of texts and of maps. */
#include "addon.h"

#include <string.h>

uint32_t word(Call *call, size_t i)
{
    uint32_t out = 0;
    if (napi_get_value_uint32(call->env, call->in[i], &out) != napi_ok) fail(call, "The argument is no number");
    return out;
}

size_t limit_in(Call *call, size_t i)
{
    napi_valuetype type = napi_undefined;
    check(call, napi_typeof(call->env, call->in[i], &type));
    return type == napi_undefined ? SIZE_MAX : word(call, i);
}

static const uint32_t NONE[1];
const Words NO_WORDS = {NONE, 0};

/* The entries of a typed array of this type, which other threads may write if its memory is shared. */
typedef struct {
    void *at;
    size_t len;
    bool is_shared;
} Array;

static Array array(Call *call, size_t i, napi_typedarray_type wanted, const char *refusal)
{
    Array out = {(void *)NONE, 0, false};
    napi_typedarray_type type;
    napi_value buffer;
    bool is_array = false;
    bool is_own = false;
    void *at = NULL;
    size_t len = 0;
    if (napi_is_typedarray(call->env, call->in[i], &is_array) != napi_ok || !is_array ||
        napi_get_typedarray_info(call->env, call->in[i], &type, &len, &at, &buffer, NULL) != napi_ok || type != wanted ||
        napi_is_arraybuffer(call->env, buffer, &is_own) != napi_ok) {
        fail(call, refusal);
        return out;
    }
    if (at == NULL || len == 0) return out;
    return (Array){at, len, !is_own};
}

Bytes lent_bytes(Call *call, size_t i, bool *is_shared)
{
    Array it = array(call, i, napi_uint8_array, "The text is neither a string nor a Uint8Array");
    *is_shared = it.is_shared;
    return (Bytes){it.at, it.len};
}

Bytes bytes(Call *call, size_t i)
{
    bool is_shared = false;
    Bytes it = lent_bytes(call, i, &is_shared);
    if (is_shared) it.at = copied(call, it.at, it.len);
    return it;
}

/* UTF-8 takes at most three bytes for a unit of UTF-16, and as many bytes as units in ASCII alone, which is copied faster. */
static Bytes string_bytes(Call *call, napi_value value)
{
    size_t units = 0;
    size_t bytes = 0;
    bool is_ascii = false;
    check(call, napi_get_value_string_utf16(call->env, value, NULL, 0, &units));
    if (units > SMALL) {
        check(call, napi_get_value_string_utf8(call->env, value, NULL, 0, &bytes));
        is_ascii = bytes == units;
    } else {
        bytes = 3 * units;
    }
    char *at = room(call, bytes + 1);
    if (at == NULL) return (Bytes){NULL, 0};
    check(call, is_ascii ? napi_get_value_string_latin1(call->env, value, at, bytes + 1, &bytes)
                         : napi_get_value_string_utf8(call->env, value, at, bytes + 1, &bytes));
    return (Bytes){at, bytes};
}

Bytes text(Call *call, size_t i)
{
    napi_valuetype type = napi_undefined;
    check(call, napi_typeof(call->env, call->in[i], &type));
    return type == napi_string ? string_bytes(call, call->in[i]) : bytes(call, i);
}

static Array word_array(Call *call, size_t i) { return array(call, i, napi_uint32_array, "The argument is no Uint32Array"); }

Words words(Call *call, size_t i)
{
    Array it = word_array(call, i);
    if (it.is_shared) it.at = copied(call, it.at, 4 * it.len);
    return (Words){it.at, it.len};
}

Output output(Call *call, size_t i, Words reads)
{
    Array it = word_array(call, i);
    Output out = {it.at, it.len, it.at};
    uintptr_t begin = (uintptr_t)it.at;
    uintptr_t other = (uintptr_t)reads.at;
    bool is_apart = begin + 4 * it.len <= other || other + 4 * reads.len <= begin;
    if (it.len > 0 && (it.is_shared || !is_apart)) out.at = copied(call, it.at, 4 * it.len);
    return out;
}

void show(const Output *out)
{
    if (out->at != out->shown && out->at != NULL) memcpy(out->shown, out->at, 4 * out->len);
}

Texts texts(Call *call, size_t i)
{
    Bytes all = bytes(call, i);
    Words lengths = words(call, i + 1);
    smap_text *out = call->failed ? NULL : room(call, lengths.len * sizeof *out);
    size_t used = 0;
    for (size_t k = 0; out != NULL && k < lengths.len; k++) {
        bool is_known = lengths.at[k] != UINT32_MAX;
        size_t len = is_known ? lengths.at[k] : 0;
        if (len > all.len - used) {
            fail(call, "The lengths are above the bytes");
            return (Texts){NULL, 0};
        }
        out[k] = (smap_text){is_known ? all.at + used : NULL, len};
        used += len;
    }
    return (Texts){out, lengths.len};
}

static napi_value *elements(Call *call, size_t i, uint32_t *len)
{
    if (napi_get_array_length(call->env, call->in[i], len) != napi_ok) {
        fail(call, "The maps are no array");
        return NULL;
    }
    napi_value *out = room(call, *len * sizeof *out);
    for (uint32_t k = 0; out != NULL && !call->failed && k < *len; k++)
        check(call, napi_get_element(call->env, call->in[i], k, &out[k]));
    return out;
}

Maps maps(Call *call, size_t i)
{
    Maps out = {NULL, 0};
    napi_value *values = elements(call, i, &out.len);
    if (call->failed) return out;
    out.at = room(call, out.len * sizeof *out.at);
    for (uint32_t k = 0; !call->failed && k < out.len; k++) {
        const Handle *it = handle_in(call, values[k], MAP);
        if (it != NULL) out.at[k] = map_in(it);
    }
    return out;
}

/* Faults and mends in words. */
#include "addon.h"

#include <string.h>

typedef size_t Says(const void *, char *, size_t);

static size_t says_fault(const void *it, char *out, size_t len) { return smap_message(it, out, len); }
static size_t says_place(const void *it, char *out, size_t len) { return smap_place_message(it, out, len); }
static size_t says_mend(const void *it, char *out, size_t len) { return smap_mend_message(it, out, len); }

/* What is said of a struct, by its words. */
static napi_value says(Call *call, Says *say, size_t size)
{
    union {
        smap_fault fault;
        smap_mend mend;
    } it;
    char small[256];
    char *out = small;
    Words given = words(call, 0);
    if (!call->failed && 4 * given.len != size) fail(call, "It is no fault and no mend");
    if (call->failed) return NULL;
    memcpy(&it, given.at, size);
    size_t len = say(&it, small, sizeof small);
    if (len > sizeof small) out = room(call, len);
    if (out == NULL) return NULL;
    if (out != small) say(&it, out, len);
    return string(call, out, len);
}
static napi_value message(Call *call) { return says(call, says_fault, sizeof(smap_fault)); }
static napi_value place_message(Call *call) { return says(call, says_place, sizeof(smap_fault)); }
static napi_value mend_message(Call *call) { return says(call, says_mend, sizeof(smap_mend)); }

/* What is really wrong with a text at the place of its fault: a short text, which may be empty. */
static napi_value reason_message(Call *call)
{
    smap_fault fault;
    char small[256];
    Bytes it = text(call, 0);
    Words given = words(call, 1);
    if (!call->failed && given.len * 4 != sizeof fault) fail(call, "It is no fault");
    if (call->failed) return NULL;
    memcpy(&fault, given.at, sizeof fault);
    size_t len = smap_reason_message(it.at, it.len, &fault, small, sizeof small);
    return string(call, small, len < sizeof small ? len : sizeof small);
}

static napi_value code_name(Call *call)
{
    uint32_t code = word(call, 0);
    if (call->failed) return NULL;
    const char *name = smap_code_name(code);
    return string(call, name, strlen(name));
}

const Entry MESSAGE_CALLS[] = {
    {"message", message},
    {"placeMessage", place_message},
    {"mendMessage", mend_message},
    {"reasonMessage", reason_message},
    {"codeName", code_name},
    {NULL, NULL},
};

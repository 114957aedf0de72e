/* A call from JavaScript: how it fails, the memory that it takes, and its code. */
#include "addon.h"

#include <stdlib.h>
#include <string.h>

void fail(Call *call, const char *message)
{
    bool is_pending = false;
    call->failed = true;
    napi_is_exception_pending(call->env, &is_pending);
    if (!is_pending) napi_throw_type_error(call->env, NULL, message);
}

void check(Call *call, napi_status status)
{
    if (status != napi_ok) fail(call, "Node refuses the call");
}

void *room(Call *call, size_t bytes)
{
    void *at = call->owned_count < MOST_OWNED ? malloc(bytes + 1) : NULL;
    if (at == NULL)
        fail(call, "No memory for the call");
    else
        call->owned[call->owned_count++] = at;
    return at;
}

void *copied(Call *call, const void *from, size_t bytes)
{
    void *to = room(call, bytes);
    if (to != NULL && bytes > 0) memcpy(to, from, bytes);
    return to;
}

napi_value number(Call *call, uint32_t it)
{
    napi_value out = NULL;
    check(call, napi_create_uint32(call->env, it, &out));
    return out;
}

napi_value coded(Call *call, uint32_t code) { return number(call, code); }

uint32_t told(Call *call, uint32_t code)
{
    if (code != SMAP_OK) *call->fault = (smap_fault){.code = code};
    return code;
}

napi_value coded_alone(Call *call, uint32_t code) { return coded(call, told(call, code)); }

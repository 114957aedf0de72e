/* What a map, scopes, a builder or a join is to JavaScript, and what the garbage collector is told of it. */
#include "addon.h"

#include <stdlib.h>

const smap_map *map_in(const Handle *handle) { return handle->held != NULL ? handle->held->map : NULL; }

/* Counts what a handle holds more, or less, and tells the collector once it is worth it for all handles together. Who tells of more may
 * start the collector, whose finalizers come here again: so nothing is left to tell by then, and they tell of less alone. */
void tell(napi_env env, Handle *handle, int64_t more)
{
    Instance *instance = handle->instance;
    int64_t now;
    handle->weight += more;
    instance->untold += more;
    if (instance->untold > -SMALL && instance->untold < SMALL) return;
    int64_t untold = instance->untold;
    instance->untold = 0;
    if (napi_adjust_external_memory(env, untold, &now) != napi_ok) instance->untold += untold;
}

/* Frees what a handle holds. */
static void empty(napi_env env, Handle *handle)
{
    Instance *instance = handle->instance;
    if (instance->selected == handle) {
        instance->selected = NULL;
        instance->asked = NULL;
        instance->words[SELECTED] = 0;
    }
    let_go(handle->held);
    smap_free_mends(handle->mends);
    smap_free_builder(handle->builder);
    smap_free_join(handle->join);
    smap_free_compiled(handle->open.map);
    smap_free_scopes(handle->scopes);
    if (handle->open.array != NULL) napi_delete_reference(env, handle->open.array);
    handle->held = NULL;
    handle->mends = NULL;
    handle->builder = NULL;
    handle->join = NULL;
    handle->open = (Open){0};
    handle->scopes = NULL;
    tell(env, handle, -handle->weight);
}

static void drop(napi_env env, Handle *it)
{
    empty(env, it);
    unlist(&it->instance->handles, it);
    free(it);
}

static void finalize(napi_env env, void *data, void *hint)
{
    (void)hint;
    drop(env, data);
}

Handle *new_handle(Instance *instance, Kind kind)
{
    Handle *it = calloc(1, sizeof *it);
    if (it == NULL) return NULL;
    it->kind = kind;
    it->instance = instance;
    return it;
}

napi_status external_of(napi_env env, Handle *it, napi_value *out)
{
    napi_status status = napi_generic_failure;
    if (it == NULL) return status;
    if (enlist(&it->instance->handles, it)) status = napi_create_external(env, it, finalize, NULL, out);
    if (status != napi_ok) drop(env, it);
    return status;
}

napi_status map_value(napi_env env, Instance *instance, Held *held, smap_mends *mends, napi_value *out)
{
    Handle *it = held != NULL ? new_handle(instance, MAP) : NULL;
    if (it == NULL) {
        let_go(held);
        smap_free_mends(mends);
        return napi_generic_failure;
    }
    smap_counts counts = {0};
    smap_get_counts(held->map, &counts);
    it->held = held;
    it->mends = mends;
    napi_status status = external_of(env, it, out);
    if (status == napi_ok) tell(env, it, (int64_t)counts.bytes);
    return status;
}

Handle *handle_of(Call *call, napi_value value)
{
    void *data = NULL;
    if (napi_get_value_external(call->env, value, &data) != napi_ok) return NULL;
    return is_listed(&call->instance->handles, data) ? data : NULL;
}

Handle *handle_in(Call *call, napi_value value, Kind kind)
{
    Handle *it = handle_of(call, value);
    if (it != NULL && it->kind == kind) return it;
    fail(call, "The handle is of another kind");
    return NULL;
}

Handle *handle(Call *call, size_t i, Kind kind) { return handle_in(call, call->in[i], kind); }

const smap_map *map(Call *call, size_t i)
{
    const Handle *it = handle(call, i, MAP);
    return it != NULL ? map_in(it) : NULL;
}

smap_map *own_map(Call *call, size_t i, uint32_t *code)
{
    const Handle *it = handle(call, i, MAP);
    *code = SMAP_OK;
    if (it == NULL) return NULL;
    if (it->held == NULL)
        *code = SMAP_NULL_HANDLE;
    else if (it->held->number != 0)
        *code = SHARED;
    else
        return it->held->map;
    told(call, *code);
    return NULL;
}

static napi_value free_handle(Call *call)
{
    Handle *it = handle_of(call, call->in[0]);
    if (it == NULL)
        fail(call, "It is no handle");
    else
        empty(call->env, it);
    return NULL;
}

const Entry HANDLE_CALLS[] = {
    {"free", free_handle},
    {NULL, NULL},
};

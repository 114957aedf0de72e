/* The module: its numbers, and the calls of all files by their names. */
#include "addon.h"

#include <stdlib.h>

static void free_instance(napi_env env, void *data, void *hint)
{
    Instance *it = data;
    (void)hint;
    leave(env);
    free(it->handles.at);
    free(it->numbers);
    free(it);
}

static void keep_numbers(napi_env env, void *data, void *hint)
{
    (void)env;
    (void)data;
    (void)hint;
}

/* The memory of the words and the fault, and the buffer of JavaScript over it. It is ours, so that it stays where it is whatever is
 * done to the buffer; unless the host allows no such buffers. */
static napi_status make_numbers(napi_env env, Instance *it, napi_value *buffer)
{
    size_t size = WORDS * sizeof(uint32_t) + sizeof(smap_fault);
    void *at = it->numbers = calloc(1, size);
    if (at == NULL) return napi_generic_failure;
    napi_status status = napi_create_external_arraybuffer(env, at, size, keep_numbers, NULL, buffer);
    if (status != napi_ok) {
        status = napi_create_arraybuffer(env, size, &at, buffer);
        if (status == napi_ok) status = napi_create_reference(env, *buffer, 1, &it->keeps);
    }
    it->words = at;
    it->fault = (smap_fault *)((uint32_t *)at + WORDS);
    return status;
}

static napi_status add_numbers(napi_env env, Instance *it, napi_value exports)
{
    napi_value buffer;
    napi_value array;
    napi_status status = make_numbers(env, it, &buffer);
    if (status == napi_ok) status = napi_create_typedarray(env, napi_uint32_array, WORDS, buffer, 0, &array);
    if (status == napi_ok) status = napi_set_named_property(env, exports, "words", array);
    if (status == napi_ok) status = napi_create_typedarray(env, napi_uint32_array, FAULT_WORDS, buffer, 4 * WORDS, &array);
    if (status == napi_ok) status = napi_set_named_property(env, exports, "fault", array);
    if (status == napi_ok) status = napi_create_uint32(env, smap_version(), &array);
    if (status == napi_ok) status = napi_set_named_property(env, exports, "version", array);
    if (status == napi_ok) status = napi_create_string_utf8(env, "addon", NAPI_AUTO_LENGTH, &array);
    return status == napi_ok ? napi_set_named_property(env, exports, "backend", array) : status;
}

static const Entry *const TABLES[] = {
    READING_CALLS,
    READING_ASYNC_CALLS,
    HANDLE_CALLS,
    SHARING_CALLS,
    INSPECTING_CALLS,
    LOOKUP_CALLS,
    CHANGING_CALLS,
    MAKING_CALLS,
    BUILDING_CALLS,
    WRITING_CALLS,
    COMPILED_CALLS,
    SCOPES_CALLS,
    MESSAGE_CALLS,
};

/* Runs the call of an entry. */
static napi_value enter(napi_env env, napi_callback_info info)
{
    void *instance = NULL;
    void *data = NULL;
    size_t count = MOST_ARGUMENTS;
    Call call = {.env = env};
    if (napi_get_instance_data(env, &instance) != napi_ok || napi_get_cb_info(env, info, &count, call.in, NULL, &data) != napi_ok) {
        napi_throw_type_error(env, NULL, "Node refuses the call");
        return NULL;
    }
    const Entry *entry = data;
    call.instance = instance;
    call.words = call.instance->words;
    call.fault = call.instance->fault;
    napi_value out = entry->run(&call);
    for (size_t i = 0; i < call.owned_count; i++) free(call.owned[i]);
    return call.failed ? NULL : out;
}

static napi_status add_call(napi_env env, napi_value exports, const char *name, napi_callback run, const Entry *entry)
{
    napi_value it;
    napi_status status = napi_create_function(env, name, NAPI_AUTO_LENGTH, run, (void *)entry, &it);
    return status == napi_ok ? napi_set_named_property(env, exports, name, it) : status;
}

static napi_status add_calls(napi_env env, napi_value exports)
{
    napi_status status = add_call(env, exports, "trace", trace, NULL);
    for (size_t i = 0; i < sizeof TABLES / sizeof *TABLES; i++)
        for (const Entry *it = TABLES[i]; status == napi_ok && it->name != NULL; it++)
            status = add_call(env, exports, it->name, enter, it);
    return status;
}

NAPI_MODULE_INIT()
{
    Instance *it = calloc(1, sizeof *it);
    if (it == NULL || napi_set_instance_data(env, it, free_instance, NULL) != napi_ok) {
        free(it);
        napi_throw_error(env, NULL, "No memory for the module");
        return NULL;
    }
    if (add_numbers(env, it, exports) != napi_ok || add_calls(env, exports) != napi_ok) {
        napi_throw_error(env, NULL, "Node refuses the module");
        return NULL;
    }
    return exports;
}

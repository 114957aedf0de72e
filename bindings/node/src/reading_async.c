/* Reading a map on another thread. */
#include "addon.h"

#include <stdlib.h>
#include <string.h>

typedef struct {
    Instance *instance;
    char *json;
    size_t len;
    smap_map *map;
    smap_fault fault;
    uint32_t code;
    napi_deferred deferred;
    napi_async_work work;
} Job;

static void job_runs(napi_env env, void *data)
{
    Job *job = data;
    (void)env;
    job->code = smap_from_json_string(job->json, job->len, &job->map, &job->fault);
}

static napi_status fault_value(napi_env env, const smap_fault *fault, napi_value *out)
{
    void *at = NULL;
    napi_value buffer;
    napi_status status = napi_create_arraybuffer(env, sizeof *fault, &at, &buffer);
    if (status != napi_ok) return status;
    memcpy(at, fault, sizeof *fault);
    return napi_create_typedarray(env, napi_uint32_array, FAULT_WORDS, buffer, 0, out);
}

/* What a job comes to; its map is no longer the job's. */
static napi_status job_value(napi_env env, Job *job, napi_value *out)
{
    smap_map *map = job->map;
    job->map = NULL;
    if (job->code != SMAP_OK) return fault_value(env, &job->fault, out);
    return map_value(env, job->instance, new_held(map), NULL, out);
}

static void free_job(napi_env env, Job *job)
{
    if (job->work != NULL) napi_delete_async_work(env, job->work);
    smap_free_map(job->map);
    free(job->json);
    free(job);
}

/* The environment may be at its end: then nothing is left to settle. */
static void job_is_done(napi_env env, napi_status status, void *data)
{
    Job *job = data;
    napi_value value = NULL;
    if (status == napi_ok) {
        status = job_value(env, job, &value);
        if (status == napi_ok)
            napi_resolve_deferred(env, job->deferred, value);
        else if (napi_get_undefined(env, &value) == napi_ok)
            napi_reject_deferred(env, job->deferred, value);
    }
    free_job(env, job);
}

/* A job with a copy of the text, or null. */
static Job *new_job(Instance *instance, Bytes json)
{
    Job *job = calloc(1, sizeof *job);
    char *copy = malloc(json.len + 1);
    if (job == NULL || copy == NULL) {
        free(job);
        free(copy);
        return NULL;
    }
    if (json.len > 0) memcpy(copy, json.at, json.len);
    job->instance = instance;
    job->json = copy;
    job->len = json.len;
    return job;
}

static napi_value read_async(Call *call)
{
    napi_value promise = NULL;
    napi_value name = NULL;
    Bytes json = text(call, 0);
    Job *job = call->failed ? NULL : new_job(call->instance, json);
    if (job == NULL) {
        fail(call, "No memory for the call");
        return NULL;
    }
    check(call, napi_create_string_latin1(call->env, "junketscarp", NAPI_AUTO_LENGTH, &name));
    if (!call->failed) check(call, napi_create_async_work(call->env, NULL, name, job_runs, job_is_done, job, &job->work));
    if (!call->failed) check(call, napi_create_promise(call->env, &job->deferred, &promise));
    if (!call->failed) check(call, napi_queue_async_work(call->env, job->work));
    if (call->failed) free_job(call->env, job);
    return promise;
}

const Entry READING_ASYNC_CALLS[] = {
    {"readAsync", read_async},
    {NULL, NULL},
};

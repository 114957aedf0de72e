/* Maps that threads share. */
#include "addon.h"

#include <pthread.h>
#include <stdlib.h>

/* The lock guards the list, and the count of each map that is on it. */
static pthread_mutex_t lock = PTHREAD_MUTEX_INITIALIZER;
static Held *all_shared;
static uint32_t last_number;

static void take_off_list(const Held *held)
{
    Held **at = &all_shared;
    while (*at != held) at = &(*at)->next;
    *at = held->next;
}

/* Whether the last handle goes. */
static bool is_left(Held *held)
{
    if (held->number == 0) return true;
    pthread_mutex_lock(&lock);
    bool is_last = --held->handles == 0;
    if (is_last) take_off_list(held);
    pthread_mutex_unlock(&lock);
    return is_last;
}

void let_go(Held *held)
{
    if (held == NULL || !is_left(held)) return;
    smap_free_map(held->map);
    free(held);
}

/* The number of a map from here on, or 0 if there are no more. */
static uint32_t number_of(Held *held)
{
    pthread_mutex_lock(&lock);
    if (held->number == 0 && last_number < UINT32_MAX) {
        held->number = ++last_number;
        held->next = all_shared;
        all_shared = held;
    }
    pthread_mutex_unlock(&lock);
    return held->number;
}

/* Another handle's hold of a map by its number, or null. */
static Held *hold_of(uint32_t number)
{
    pthread_mutex_lock(&lock);
    Held *held = all_shared;
    while (held != NULL && held->number != number) held = held->next;
    if (held != NULL) held->handles++;
    pthread_mutex_unlock(&lock);
    return held;
}

Held *new_held(smap_map *map)
{
    Held *held = calloc(1, sizeof *held);
    if (held == NULL) {
        smap_free_map(map);
        return NULL;
    }
    held->map = map;
    held->handles = 1;
    return held;
}

static napi_value share(Call *call)
{
    const Handle *it = handle(call, 0, MAP);
    if (call->failed) return NULL;
    if (it->held == NULL) return coded_alone(call, SMAP_NULL_HANDLE);
    call->words[0] = number_of(it->held);
    return coded_alone(call, call->words[0] != 0 ? SMAP_OK : SMAP_TOO_LARGE);
}

static napi_value take_shared(Call *call)
{
    napi_value out = NULL;
    uint32_t number = word(call, 0);
    if (call->failed) return NULL;
    Held *held = hold_of(number);
    if (held == NULL) return coded_alone(call, SMAP_NO_ENTRY);
    check(call, map_value(call->env, call->instance, held, NULL, &out));
    return out;
}

const Entry SHARING_CALLS[] = {
    {"share", share},
    {"takeShared", take_shared},
    {NULL, NULL},
};

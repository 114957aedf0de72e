/* The handles of an instance by their addresses: a table with open addressing, whose room is a power of two and at most half full. Type
 * tags of Node would tell our externals as well, and take as long as all the rest of a short call. */
#include "addon.h"

#include <stdlib.h>

enum { LEAST_ROOM = 64 };

/* Where an address is, or else would be. */
static size_t slot_of(const Registry *it, const void *address)
{
    uint64_t mixed = (uint64_t)(uintptr_t)address * 0x9e3779b97f4a7c15u;
    size_t at = (size_t)(mixed >> 32) & (it->room - 1);
    while (it->at[at] != NULL && it->at[at] != address) at = (at + 1) & (it->room - 1);
    return at;
}

bool is_listed(const Registry *it, const void *address)
{
    return it->room > 0 && address != NULL && it->at[slot_of(it, address)] == address;
}

static bool resize(Registry *it, size_t room)
{
    Registry other = {calloc(room, sizeof *other.at), room, it->count};
    if (other.at == NULL) return false;
    for (size_t i = 0; i < it->room; i++)
        if (it->at[i] != NULL) other.at[slot_of(&other, it->at[i])] = it->at[i];
    free(it->at);
    *it = other;
    return true;
}

bool enlist(Registry *it, const void *address)
{
    size_t wider = it->room > 0 ? 2 * it->room : LEAST_ROOM;
    if (2 * it->count >= it->room && !resize(it, wider)) return false;
    it->at[slot_of(it, address)] = address;
    it->count++;
    return true;
}

/* Those behind it, which a search may have led past it, are put in anew. */
void unlist(Registry *it, const void *address)
{
    if (!is_listed(it, address)) return;
    size_t at = slot_of(it, address);
    it->at[at] = NULL;
    it->count--;
    for (at = (at + 1) & (it->room - 1); it->at[at] != NULL; at = (at + 1) & (it->room - 1)) {
        const void *moved = it->at[at];
        it->at[at] = NULL;
        it->at[slot_of(it, moved)] = moved;
    }
    if (it->room > LEAST_ROOM && 8 * it->count < it->room) resize(it, it->room / 2);
}

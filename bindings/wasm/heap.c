/* The heap of the WebAssembly module: malloc, calloc, realloc and free over one region, which begins where the module's own data ends
 * and grows with the memory. Nothing proves this file; test/heap_test.c tries it.
 *
 * The region is a row of blocks without gaps. Each has a header of 16 bytes: its size, a multiple of 16, whose lowest bit marks the
 * block as free, and the size of the block before. No two free blocks are neighbours. Free blocks are listed by size, in two levels:
 * a power of two, and the eighth of it. A bit for each list that has a block finds one in a few steps. There is one thread. */
#include <stddef.h>
#include <stdint.h>
#include <stdlib.h>
#include <string.h>

_Static_assert(sizeof(size_t) == 8 && sizeof(void *) == 8, "sizes and pointers have 64 bits");

typedef struct block {
    size_t tag;
    size_t before;
    struct block *next; /* these two of a free block alone */
    struct block *prev;
} block;

enum { HEADER = 16, IS_FREE = 1, LEAST = sizeof(block), LEVELS = 34, EIGHTHS = 8, PAGE = 65536, MOST_SPARE_PAGES = 64 };
/* A request above this is refused: the memory has 32-bit addresses. */
#define MOST ((size_t)1 << 32)

static block *lists[LEVELS][EIGHTHS];
static uint64_t filled_levels;
static uint8_t filled[LEVELS];
static block *first, *last;
static char *top; /* where the last block ends */
static size_t free_bytes; /* of the blocks in the lists */

/* ---- the memory ---- */

#ifndef HEAP_BEGIN
extern char __heap_base;
#define HEAP_BEGIN (&__heap_base)
static size_t memory_pages(void) { return __builtin_wasm_memory_size(0); }
/* A refusal is -1 of 32 bits, whose sign a lowered module may extend or not. */
static int grow_memory(size_t pages) { return (uint32_t)__builtin_wasm_memory_grow(0, pages) != UINT32_MAX; }
static char *memory_end(void) { return (char *)(memory_pages() * PAGE); }
#endif

/* Moves the top up by so many bytes, if the host gives them. More is asked for at once, so that the memory seldom grows. */
static int extend(size_t bytes) {
    if (!top) top = (char *)(((uintptr_t)HEAP_BEGIN + 15) & ~(uintptr_t)15);
    size_t room = (size_t)(memory_end() - top);
    if (room < bytes) {
        size_t pages = (bytes - room + PAGE - 1) / PAGE;
        size_t spare = memory_pages() / 8;
        if (spare > MOST_SPARE_PAGES) spare = MOST_SPARE_PAGES;
        if (!grow_memory(pages + spare) && !grow_memory(pages)) return 0;
    }
    top += bytes;
    return 1;
}

/* ---- lists of free blocks ---- */

static size_t size_of(const block *b) { return b->tag & ~(size_t)IS_FREE; }
static int is_free(const block *b) { return b && b->tag & IS_FREE; }

static void list_of(size_t size, int *level, int *eighth) {
    *level = 63 - __builtin_clzll(size);
    *eighth = (int)(size >> (*level - 3)) & (EIGHTHS - 1);
}

static void put_in_list(block *b) {
    int level, eighth;
    list_of(size_of(b), &level, &eighth);
    block **list = &lists[level][eighth];
    free_bytes += size_of(b);
    b->tag |= IS_FREE;
    b->prev = NULL;
    b->next = *list;
    if (b->next) b->next->prev = b;
    *list = b;
    filled[level] |= (uint8_t)(1 << eighth);
    filled_levels |= (uint64_t)1 << level;
}

static void take_from_list(block *b) {
    int level, eighth;
    list_of(size_of(b), &level, &eighth);
    free_bytes -= size_of(b);
    b->tag &= ~(size_t)IS_FREE;
    if (b->next) b->next->prev = b->prev;
    if (b->prev) {
        b->prev->next = b->next;
        return;
    }
    lists[level][eighth] = b->next;
    if (b->next) return;
    filled[level] &= (uint8_t)~(1 << eighth);
    if (!filled[level]) filled_levels &= ~((uint64_t)1 << level);
}

/* A block that is taken from a list all of whose blocks are large enough, or null. */
static block *take_free(size_t size) {
    int level, eighth;
    size_t step = (size_t)1 << (63 - __builtin_clzll(size) - 3);
    list_of(size + step - 1, &level, &eighth);
    unsigned here = filled[level] & (0xffu << eighth);
    if (!here) {
        uint64_t above = filled_levels & (~(uint64_t)0 << (level + 1));
        if (!above) return NULL;
        level = __builtin_ctzll(above);
        here = filled[level];
    }
    block *b = lists[level][__builtin_ctz(here)];
    take_from_list(b);
    return b;
}

/* ---- the row of blocks ---- */

static block *after(const block *b) { return b == last ? NULL : (block *)((char *)b + size_of(b)); }
static block *before(const block *b) { return b == first ? NULL : (block *)((char *)b - b->before); }

/* Gives a block that is in use its size, and informs the next one. */
static void set_size(block *b, size_t size) {
    b->tag = size;
    if (b != last) after(b)->before = size;
}

/* Adds the free block after a block to it. */
static void join_after(block *b) {
    block *next = after(b);
    take_from_list(next);
    if (next == last) last = b;
    set_size(b, size_of(b) + size_of(next));
}

/* Frees what a block in use has above a size, if that is enough for a block. */
static void cut(block *b, size_t size) {
    size_t rest = size_of(b) - size;
    if (rest < LEAST) return;
    block *other = (block *)((char *)b + size);
    other->before = size;
    if (b == last) last = other;
    b->tag = size;
    set_size(other, rest);
    if (is_free(after(other))) join_after(other);
    put_in_list(other);
}

/* Makes the last block, which is in use, as large as this. */
static int stretch_last(size_t size) {
    if (!extend(size - size_of(last))) return 0;
    last->tag = size;
    return 1;
}

/* A block at the end of the row. A free one there may be large enough, as lists of its size have smaller ones too. */
static block *append(size_t size) {
    if (is_free(last)) {
        take_from_list(last);
        if (size_of(last) >= size || stretch_last(size)) return last;
        put_in_list(last);
        return NULL;
    }
    if (!extend(size)) return NULL;
    block *b = (block *)(top - size);
    b->tag = size;
    b->before = last ? size_of(last) : 0;
    if (!first) first = b;
    last = b;
    return b;
}

static size_t with_header(size_t bytes) {
    size_t size = (bytes + HEADER + 15) & ~(size_t)15;
    return size < LEAST ? LEAST : size;
}

static block *block_of(void *at) { return (block *)((char *)at - HEADER); }

/* How many bytes are in use, with the headers of their blocks. */
size_t heap_used(void);
size_t heap_used(void) { return first ? (size_t)(top - (char *)first) - free_bytes : 0; }

/* ---- calls ---- */

/* None of the calls of C calls another one, so that tests can count and refuse each by its name. */
static void *take(size_t bytes) {
    if (bytes > MOST) return NULL;
    size_t size = with_header(bytes);
    block *b = take_free(size);
    if (!b) b = append(size);
    if (!b) return NULL;
    cut(b, size);
    return (char *)b + HEADER;
}

static void give(void *at) {
    block *b = block_of(at);
    if (is_free(after(b))) join_after(b);
    if (is_free(before(b))) {
        block *low = before(b);
        take_from_list(low);
        if (b == last) last = low;
        set_size(low, size_of(low) + size_of(b));
        b = low;
    }
    put_in_list(b);
}

/* Whether a block becomes as large as this where it is. */
static int grows_in_place(block *b, size_t size) {
    if (size_of(b) < size && is_free(after(b)) && (size_of(b) + size_of(after(b)) >= size || after(b) == last)) join_after(b);
    if (size_of(b) < size && b == last) stretch_last(size);
    return size_of(b) >= size;
}

void *malloc(size_t bytes) { return take(bytes); }

void free(void *at) {
    if (at) give(at);
}

void *calloc(size_t count, size_t bytes) {
    size_t all;
    if (__builtin_mul_overflow(count, bytes, &all)) return NULL;
    void *at = take(all);
    return at ? memset(at, 0, all) : NULL;
}

void *realloc(void *at, size_t bytes) {
    if (!at) return take(bytes);
    if (bytes > MOST) return NULL;
    block *b = block_of(at);
    size_t size = with_header(bytes);
    size_t had = size_of(b) - HEADER;
    if (grows_in_place(b, size)) {
        cut(b, size);
        return at;
    }
    void *to = take(bytes);
    if (!to) return NULL;
    memcpy(to, at, had < bytes ? had : bytes);
    give(at);
    return to;
}

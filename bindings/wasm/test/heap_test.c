/* Tries heap.c with random calls, on the machine and not in a module: its functions get other names, and its memory is an array that grows
 * by pages, and does not grow at some of the calls.
 *
 *   heap_test CALLS SEED
 *
 * Each block that is held has contents of its own, which are looked at before it is changed or freed. Every so often all blocks of the
 * heap are walked: sizes and tags agree, no two free neighbours, each free block is in the list of its size, and the others are the bytes
 * in use. At the end all is freed, and one free block is left. */
#include <stdio.h>
#define malloc heap_malloc
#define calloc heap_calloc
#define realloc heap_realloc
#define free heap_free
#include <stddef.h>
#include <stdint.h>

enum { PAGES = 32, PAGE_BYTES = 65536 };
static _Alignas(16) char memory[PAGES * PAGE_BYTES];
static size_t pages_given = 1;
static int is_refusing;
static size_t memory_pages(void) { return pages_given; }
static char *memory_end(void) { return memory + pages_given * PAGE_BYTES; }
static int asks_for_all; /* whether more was asked for than there are addresses */
static int grow_memory(size_t pages) {
    asks_for_all |= pages > (size_t)1 << 16;
    if (is_refusing || pages > PAGES - pages_given) return 0;
    pages_given += pages;
    return 1;
}
/* (not at a multiple of 16: the data of a module ends anywhere) */
#define HEAP_BEGIN (memory + 1000 + 5)
#include "../heap.c"

static uint64_t state;
static size_t below(size_t n) {
    uint64_t z = state += 0x9e3779b97f4a7c15;
    z = (z ^ z >> 30) * 0xbf58476d1ce4e5b9;
    z = (z ^ z >> 27) * 0x94d049bb133111eb;
    return (size_t)((z ^ z >> 31) % n);
}

static unsigned long calls;
#define MUST(condition) must(condition, __LINE__, #condition)
static void must(int is_so, int line, const char *condition) {
    if (is_so) return;
    printf("heap_test.c:%d: %s, at call %lu\n", line, condition, calls);
    fflush(stdout);
    __builtin_trap();
}

/* ---- what is held ---- */

enum { HELD = 700 };
static struct {
    unsigned char *at;
    size_t len;
    unsigned char byte;
} held[HELD];

static void fill(int i, unsigned char *at, size_t len, unsigned char byte) {
    MUST((uintptr_t)at % 16 == 0 && (char *)at >= memory && (char *)at + len <= memory_end());
    held[i].at = at;
    held[i].len = len;
    held[i].byte = byte;
    for (size_t k = 0; k < len; k++) at[k] = (unsigned char)(byte + k * 7);
}

static int is_as_filled(int i, size_t len) {
    for (size_t k = 0; k < len; k++)
        if (held[i].at[k] != (unsigned char)(held[i].byte + k * 7)) return 0;
    return 1;
}

/* Most blocks are small, and some are large. */
static size_t some_size(void) {
    size_t kind = below(100);
    if (kind < 70) return below(100);
    if (kind < 97) return below(3000);
    return below(100000);
}

/* ---- the walk ---- */

static int is_listed(const block *b) {
    int level, eighth;
    list_of(size_of(b), &level, &eighth);
    const block *it = lists[level][eighth];
    while (it && it != b) it = it->next;
    return it != NULL;
}

static size_t count_listed(void) {
    size_t count = 0;
    for (int level = 0; level < LEVELS; level++) {
        MUST((filled[level] != 0) == (filled_levels >> level & 1));
        for (int eighth = 0; eighth < EIGHTHS; eighth++) {
            MUST((lists[level][eighth] != NULL) == (filled[level] >> eighth & 1));
            for (const block *it = lists[level][eighth]; it; it = it->next) count++;
        }
    }
    return count;
}

/* The number of blocks, and how many of them are free. */
static size_t walk(size_t *free_blocks) {
    size_t count = 0, had = 0, used = 0;
    int was_free = 0;
    *free_blocks = 0;
    for (const block *b = first; b; b = after(b)) {
        MUST(size_of(b) % 16 == 0 && size_of(b) >= LEAST && b->before == had);
        MUST((char *)b + size_of(b) <= top && (b == last) == ((char *)b + size_of(b) == top));
        MUST(!(was_free && is_free(b)) && (!is_free(b) || is_listed(b)));
        had = size_of(b);
        was_free = is_free(b);
        used += was_free ? 0 : had;
        count++;
        *free_blocks += (size_t)was_free;
    }
    MUST(count_listed() == *free_blocks && heap_used() == used);
    return count;
}

/* ---- calls ---- */

static void takes(int i) {
    size_t len = some_size();
    if (below(4) == 0) {
        unsigned char *zero = heap_calloc(len / 8 + 1, 8);
        size_t all = (len / 8 + 1) * 8;
        if (!zero) return;
        for (size_t k = 0; k < all; k++) MUST(zero[k] == 0);
        fill(i, zero, all, (unsigned char)below(256));
        return;
    }
    unsigned char *at = heap_malloc(len);
    if (at) fill(i, at, len, (unsigned char)below(256));
    else MUST(is_refusing || top + 200000 > memory + sizeof memory);
}

static void changes(int i) {
    size_t len = below(3) ? held[i].len + below(held[i].len + 64) : below(held[i].len + 1);
    size_t kept = len < held[i].len ? len : held[i].len;
    unsigned char byte = held[i].byte;
    unsigned char *at = heap_realloc(held[i].at, len);
    if (!at) {
        MUST(is_as_filled(i, held[i].len));
        return;
    }
    held[i].at = at;
    MUST(is_as_filled(i, kept));
    fill(i, at, len, byte);
}

static void frees(int i) {
    MUST(is_as_filled(i, held[i].len));
    heap_free(held[i].at);
    held[i].at = NULL;
}

static void one_call(void) {
    int i = (int)below(HELD);
    if (below(3000) == 0) is_refusing = !is_refusing;
    if (!held[i].at) takes(i);
    else if (below(3) == 0) changes(i);
    else frees(i);
}

static void refuses_what_is_too_large(void) {
    volatile size_t all = SIZE_MAX;
    MUST(!heap_malloc(all) && !heap_malloc(MOST + 1) && !heap_calloc(all / 2, 3) && !heap_calloc(all / 2 + 1, 2));
    void *at = heap_malloc(1);
    MUST(!heap_realloc(at, all) && !heap_malloc(sizeof memory));
    heap_free(at);
    heap_free(NULL);
}

/* One that its list does not promise to be so, where the memory goes on for more than a page. */
static void takes_the_last_block(void) {
    pages_given = 4;
    heap_free(heap_malloc(5936));
    void *at = heap_malloc(5651);
    MUST(at && !asks_for_all);
    heap_free(at);
}

static unsigned long number(const char *text) {
    unsigned long out = 0;
    while (*text) out = 10 * out + (unsigned long)(*text++ - '0');
    return out;
}

int main(int count, char **words) {
    size_t free_blocks;
    unsigned long rounds = count > 1 ? number(words[1]) : 100000;
    state = count > 2 ? number(words[2]) : 1;
    refuses_what_is_too_large();
    takes_the_last_block();
    for (calls = 0; calls < rounds; calls++) {
        one_call();
        if (calls % 1000 == 0) walk(&free_blocks);
    }
    size_t most = (size_t)(top - memory);
    for (int i = 0; i < HELD; i++)
        if (held[i].at) frees(i);
    MUST(walk(&free_blocks) == 1 && free_blocks == 1 && !asks_for_all);
    printf("%lu calls, at most %zu bytes\n", rounds, most);
    return 0;
}

/* What the compiler calls where it compiles for WebAssembly: numbers of 128 bits of two of 64, comparisons of memory, and the length of a
 * text. test/compiler_test.c compares each with the results of the machine's compiler. */
#include <stddef.h>
#include <stdint.h>
#include <string.h>

typedef unsigned __int128 wide;

static wide wide_of(uint64_t high, uint64_t low) { return (wide)high << 64 | low; }
static uint64_t low_of(wide it) { return (uint64_t)it; }
static uint64_t high_of(wide it) { return (uint64_t)(it >> 64); }

/* The product of two numbers of 64 bits, by the products of their halves. */
static wide product(uint64_t a, uint64_t b) {
    uint64_t mask = UINT32_MAX;
    uint64_t low = (a & mask) * (b & mask);
    uint64_t middle = (a >> 32) * (b & mask) + (low >> 32);
    uint64_t other = (a & mask) * (b >> 32) + (middle & mask);
    return wide_of((a >> 32) * (b >> 32) + (middle >> 32) + (other >> 32), other << 32 | (low & mask));
}

wide __multi3(wide a, wide b) {
    wide it = product(low_of(a), low_of(b));
    return wide_of(high_of(it) + high_of(a) * low_of(b) + low_of(a) * high_of(b), low_of(it));
}

wide __ashlti3(wide a, int by) {
    if (by == 0) return a;
    if (by >= 64) return wide_of(low_of(a) << (by - 64), 0);
    return wide_of(high_of(a) << by | low_of(a) >> (64 - by), low_of(a) << by);
}

wide __lshrti3(wide a, int by) {
    if (by == 0) return a;
    if (by >= 64) return wide_of(0, high_of(a) >> (by - 64));
    return wide_of(high_of(a) >> by, high_of(a) << (64 - by) | low_of(a) >> by);
}

wide __ashrti3(wide a, int by) {
    int64_t high = (int64_t)high_of(a);
    if (by == 0) return a;
    if (by >= 64) return wide_of((uint64_t)(high >> 63), (uint64_t)(high >> (by - 64)));
    return wide_of((uint64_t)(high >> by), high_of(a) << (64 - by) | low_of(a) >> by);
}

/* Eight bytes at a time, as long as they are the same. */
int memcmp(const void *one, const void *other, size_t len) {
    const unsigned char *a = one;
    const unsigned char *b = other;
    uint64_t x = 0, y = 0;
    for (; len >= 8 && x == y; a += 8, b += 8, len -= 8) {
        memcpy(&x, a, 8);
        memcpy(&y, b, 8);
    }
    if (x != y) a -= 8, b -= 8, len = 8;
    while (len && *a == *b) a++, b++, len--;
    return len ? *a - *b : 0;
}

int bcmp(const void *one, const void *other, size_t len) { return memcmp(one, other, len); }

size_t strlen(const char *text) {
    size_t len = 0;
    while (text[len]) len++;
    return len;
}

/* Compares compiler.c with what the compiler of the machine says of the same numbers, and with its memcmp and strlen: the numbers are random,
 * or have few bits, or all. */
#include <stdio.h>
#include <string.h>
static int memcmp_here(const void *one, const void *other, size_t len) { return memcmp(one, other, len); }
static size_t strlen_here(const char *text) { return strlen(text); }
#define __multi3 own_multi3
#define __ashlti3 own_ashlti3
#define __lshrti3 own_lshrti3
#define __ashrti3 own_ashrti3
#define memcmp own_memcmp
#define bcmp own_bcmp
#define strlen own_strlen
#include "../compiler.c"

static uint64_t state = 1;
static uint64_t next(void) {
    uint64_t z = state += 0x9e3779b97f4a7c15;
    z = (z ^ z >> 30) * 0xbf58476d1ce4e5b9;
    z = (z ^ z >> 27) * 0x94d049bb133111eb;
    return z ^ z >> 31;
}

static uint64_t some_word(void) {
    switch (next() % 5) {
    case 0: return 0;
    case 1: return UINT64_MAX;
    case 2: return (uint64_t)1 << next() % 64;
    case 3: return next() & UINT32_MAX;
    default: return next();
    }
}

#define MUST(condition) must(condition, __LINE__, #condition)
static void must(int is_so, int line, const char *condition) {
    if (is_so) return;
    printf("compiler_test.c:%d: %s\n", line, condition);
    fflush(stdout);
    __builtin_trap();
}

static void numbers(void) {
    wide a = wide_of(some_word(), some_word());
    wide b = wide_of(some_word(), some_word());
    int by = (int)(next() % 128);
    MUST(own_multi3(a, b) == a * b);
    MUST(own_ashlti3(a, by) == a << by);
    MUST(own_lshrti3(a, by) == a >> by);
    MUST(own_ashrti3(a, by) == (wide)((__int128)a >> by));
}

static int sign(int it) { return (it > 0) - (it < 0); }

static void texts(void) {
    char one[40], other[40];
    size_t len = next() % 39;
    for (size_t i = 0; i < 40; i++) one[i] = other[i] = (char)(next() % 3 ? next() : 0x80);
    if (next() % 4) other[next() % 40] ^= (char)(1 << next() % 8);
    MUST(sign(own_memcmp(one, other, len)) == sign(memcmp_here(one, other, len)));
    MUST((own_bcmp(one, other, len) == 0) == (memcmp_here(one, other, len) == 0));
    one[39] = 0;
    MUST(own_strlen(one) == strlen_here(one));
}

int main(void) {
    for (int i = 0; i < 1000000; i++) numbers(), texts();
    printf("compiler.c says the same\n");
    return 0;
}

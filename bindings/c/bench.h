/* What the benchmarks in C share: a clock, numbers that look random, and an end where something fails. */
#include <stdint.h>
#include <stdlib.h>
#include <time.h>

/* Nanoseconds from some moment on. */
static double now(void) {
    struct timespec t;
    clock_gettime(CLOCK_MONOTONIC, &t);
    return (double)t.tv_sec * 1e9 + (double)t.tv_nsec;
}

static uint64_t state = 0x9E3779B97F4A7C15, sum;

static uint32_t below(uint64_t n) {
    state ^= state << 13;
    state ^= state >> 7;
    state ^= state << 17;
    return (uint32_t)((state >> 32) % n);
}

static void must(int is_so) {
    if (!is_so) exit(2);
}

// Refuses requests for memory of the tests, which are linked with it (./check tests): it stands between them and the allocator
// of C. tests/refusals/memory.rs describes these functions.
//
// The tests are watched by AddressSanitizer, whose allocator is there under names of its own. The toolchain's compiler, which compiles this,
// has no headers.
typedef __SIZE_TYPE__ size_t;
typedef __UINT64_TYPE__ uint64_t;
#define NULL ((void *)0)
#define ENOMEM 12

// (the address of errno in glibc)
int *__errno_location(void);

void *__interceptor_malloc(size_t size);
void *__interceptor_calloc(size_t count, size_t size);
void *__interceptor_realloc(void *block, size_t size);
void __interceptor_free(void *block);

static uint64_t first, last, requests, refused, blocks;
static int is_counting;

void begin_call(void) {
    requests = 0;
    refused = 0;
    is_counting = 1;
}

void end_call(void) {
    is_counting = 0;
}

void refuse_requests(uint64_t from, uint64_t to) {
    first = from;
    last = to;
}

uint64_t requests_made(void) {
    return requests;
}

uint64_t requests_refused(void) {
    return refused;
}

uint64_t blocks_in_use(void) {
    return blocks;
}

static int is_refused(void) {
    if (!is_counting)
        return 0;
    requests++;
    if (requests < first || requests > last)
        return 0;
    refused++;
    *__errno_location() = ENOMEM;
    return 1;
}

static void *given(void *block) {
    blocks += block != NULL;
    return block;
}

void *malloc(size_t size) {
    return is_refused() ? NULL : given(__interceptor_malloc(size));
}

void *calloc(size_t count, size_t size) {
    return is_refused() ? NULL : given(__interceptor_calloc(count, size));
}

void *realloc(void *block, size_t size) {
    if (is_refused())
        return NULL;
    return block ? __interceptor_realloc(block, size) : given(__interceptor_malloc(size));
}

void free(void *block) {
    blocks -= block != NULL;
    __interceptor_free(block);
}

/* What the proved library takes memory by, over malloc, realloc and free: for processors and systems for which the toolchain has no
 * object of it. An answer says whether there was memory; its pointer is never null. */
#include <stdint.h>
#include <stdlib.h>

struct given {
    uint64_t is_there;
    void *at;
};

static struct given given(void *at) {
    static char none;
    struct given it = { at != NULL, at ? at : &none };
    return it;
}

/* A size of 0 takes what `align` says, so that it is a block too. malloc aligns as all of the library's types ask. */
struct given rattle_alloc(size_t size, size_t align);
struct given rattle_alloc(size_t size, size_t align) {
    return given(malloc(size ? size : align));
}

struct given rattle_realloc(void *at, size_t had, size_t size, size_t align);
struct given rattle_realloc(void *at, size_t had, size_t size, size_t align) {
    (void)had;
    return given(realloc(at, size ? size : align));
}

void rattle_dealloc(void *at);
void rattle_dealloc(void *at) {
    free(at);
}

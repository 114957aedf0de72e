/* Calls each function of oxc_sourcemap.h with what it takes and what it refuses, and with null where the header allows it. Then it
 * makes one call of each kind again with each request for memory refused in turn: every call then answers SMAP_OUT_OF_MEMORY or what
 * it answers anyway, and nothing is leaked. The last line says how many checks passed and failed.
 *
 * Rows are those of tests/, which are worked by hand or come from tests/reference. It compiles as C99, C23 and C++17, and is linked
 * with --wrap=malloc and so on, so that it can refuse what the library asks for, and count what it keeps. */
#include "tests.h"

int main(void) {
    test_errors();
    test_reading();
    test_holding();
    test_sharing();
    test_lookups();
    test_compiled();
    test_scopes();
    test_files();
    test_queries();
    test_making();
    test_building();
    test_writing();
    test_null_handles();
    test_memory();
    CHECK(kept == 0);
    printf("%d passed, %d failed\n", passed, failed);
    return failed != 0;
}

// The allocator of the library where requests are to be refused: `fail_after(n)` lets n pass, and refuses the rest.
#include "postgres.h"

#include "fmgr.h"

extern void *tried_malloc(size_t size);
extern void *tried_realloc(void *memory, size_t size);

static int64 left = -1;

static bool is_refused(void) {
    return left == 0 || (left > 0 && left-- == 0);
}

void *tried_malloc(size_t size) {
    return is_refused() ? NULL : malloc(size);
}

void *tried_realloc(void *memory, size_t size) {
    return is_refused() ? NULL : realloc(memory, size);
}

PG_FUNCTION_INFO_V1(fail_after);

Datum fail_after(PG_FUNCTION_ARGS) {
    left = PG_GETARG_INT64(0);
    PG_RETURN_VOID();
}

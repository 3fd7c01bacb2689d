// What the library for arm64 has beside what is proved: the kit's three calls for memory, over those of C. The kit has
// them for x86-64 alone.
#include <stddef.h>
#include <stdlib.h>

// What the calls give: whether the request is granted, and the block, or else a place that is no block.
struct tried {
    size_t is_granted;
    void *block;
};

static unsigned char nothing;

static struct tried tried(void *block) {
    return (struct tried){block != NULL, block ? block : &nothing};
}

struct tried rattle_alloc(size_t bytes, size_t alignment) {
    return tried(malloc(bytes ? bytes : alignment));  // which aligns by 16, and no more is asked for
}

struct tried rattle_realloc(void *block, size_t kept, size_t bytes, size_t alignment) {
    (void)kept;
    return tried(realloc(block, bytes ? bytes : alignment));
}

void rattle_dealloc(void *block) {
    free(block);
}

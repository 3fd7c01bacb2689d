// What the module for WebAssembly has beside the proved library: the kit's three calls for memory, and the calls by
// which whoever runs the module hands bytes over and bounds its memory.
#include "heap.h"

enum { PAGE = 65536 };

extern unsigned char __heap_base;

// What the kit's calls give: whether the request is granted, and the block, or else a place that is no block.
struct tried {
    size is_granted;
    void *block;
};

static unsigned char nothing;

static struct tried tried(void *block) {
    return (struct tried){block != 0, block ? block : &nothing};
}

struct tried rattle_alloc(size bytes, size alignment) {
    (void)alignment;  // at most 16, as malloc has it
    return tried(heap_take(bytes));
}

struct tried rattle_realloc(void *block, size kept, size bytes, size alignment) {
    (void)kept;
    (void)alignment;
    return tried(heap_retake(block, bytes));
}

void rattle_dealloc(void *block) {
    heap_give(block);
}

size machine_start(void) {
    return ((size)&__heap_base + 15) & ~(size)15;
}

size machine_reach(size address) {
    size pages = __builtin_wasm_memory_size(0), wanted = (address + PAGE - 1) / PAGE;
    if (wanted > pages) {
        if (__builtin_wasm_memory_grow(0, wanted - pages) == ~(size)0) return 0;
        pages = wanted;
    }
    return pages * PAGE;
}

void *icu_locale_take(size bytes) {
    return heap_take(bytes);
}

void icu_locale_give(void *block) {
    heap_give(block);
}

void icu_locale_bound(size bytes) {
    heap_bound(bytes / PAGE * PAGE);
}

void icu_locale_grants(size requests) {
    heap_grants(requests);
}

size icu_locale_taken(void) {
    return heap_taken();
}

// The heap of the module for WebAssembly. Blocks lie side by side, each with a head that tells its length and that of
// the block before it. A block that is given back is joined with free neighbours. Free blocks are in lists by length,
// eight for each power of two; a request is rounded up to the least length of its list, so that any block there is
// long enough.
#include "heap.h"

enum { HEAD = 16, LEAST = 32, LISTS = 43 * 8, WORDS = (LISTS + 63) / 64 };

static const size MOST = (size)1 << 46, FREE = 1;

// `before` is the length of the block before, or 0. `bytes` is the length with the head, and 1 more where it is free.
struct block {
    size before, bytes;
    struct block *next, *last;
};

static struct block *lists[LISTS];
static size listed[WORDS];  // a bit for each list that has a block
static size end;            // after the head that ends the heap, or 0 before the first request
static size taken, bound = ~(size)0, grants = ~(size)0;

static size length_of(const struct block *block) {
    return block->bytes & ~FREE;
}

static struct block *at(const struct block *block, size bytes) {
    return (struct block *)((size)block + bytes);
}

static int power_of(size bytes) {
    return 63 - __builtin_clzl(bytes);
}

static int list_of(size bytes) {
    int power = power_of(bytes);
    return (power - 5) * 8 + (int)(bytes >> (power - 3) & 7);
}

// The length of a block with so much room: the least of its list, and a multiple of 16.
static size length_for(size room) {
    size bytes = room + HEAD < LEAST ? LEAST : room + HEAD, step = (size)1 << (power_of(bytes) - 3);
    if (step < 16) step = 16;
    return (bytes + step - 1) & ~(step - 1);
}

static void enlist(struct block *block) {
    int list = list_of(block->bytes);
    block->next = lists[list];
    block->last = 0;
    if (block->next) block->next->last = block;
    lists[list] = block;
    listed[list / 64] |= (size)1 << list % 64;
    block->bytes |= FREE;
}

static void unlist(struct block *block) {
    block->bytes &= ~FREE;
    int list = list_of(block->bytes);
    if (block->next) block->next->last = block->last;
    if (block->last)
        block->last->next = block->next;
    else if (!(lists[list] = block->next))
        listed[list / 64] &= ~((size)1 << list % 64);
}

// Makes a block free, and one with its free neighbours.
static void release(struct block *block) {
    struct block *after = at(block, block->bytes);
    if (after->bytes & FREE) {
        unlist(after);
        block->bytes += after->bytes;
    }
    struct block *before = at(block, -block->before);
    if (block->before && before->bytes & FREE) {
        unlist(before);
        before->bytes += block->bytes;
        block = before;
    }
    at(block, block->bytes)->before = block->bytes;
    enlist(block);
}

// The first block of the least list that is long enough, out of its list, or null.
static struct block *found(size bytes) {
    int list = list_of(bytes), word = list / 64;
    size bits = listed[word] & ~(size)0 << list % 64;
    while (!bits && ++word < WORDS) bits = listed[word];
    if (!bits) return 0;
    struct block *block = lists[word * 64 + __builtin_ctzl(bits)];
    unlist(block);
    return block;
}

// Makes the heap longer, by an eighth or as much as a block of so many bytes wants.
static int grow(size bytes) {
    size first = end ? end - HEAD : machine_start();
    size before = end ? ((struct block *)first)->before : 0;
    struct block *last = at((struct block *)first, -before);
    size wanted = first + HEAD + (before && last->bytes & FREE ? bytes - length_of(last) : bytes);
    size ample = first + (first - machine_start()) / 8;
    if (wanted > bound) return 0;
    size reached = ample > wanted && ample <= bound ? machine_reach(ample) : 0;
    if (!reached) reached = machine_reach(wanted);
    if (!reached) return 0;
    struct block *block = (struct block *)first;
    block->before = before;
    block->bytes = reached - HEAD - first;
    end = reached;
    at(block, block->bytes)->bytes = 0;
    release(block);
    return 1;
}

// Cuts a block that is taken down to so many bytes, where what is after them makes a block.
static void cut(struct block *block, size bytes) {
    size rest = block->bytes - bytes;
    if (rest < LEAST) return;
    block->bytes = bytes;
    struct block *behind = at(block, bytes);
    behind->before = bytes;
    behind->bytes = rest;
    release(behind);
}

static int is_granted(size room) {
    if (room > MOST || !grants) return 0;
    if (grants != ~(size)0) grants -= 1;
    return 1;
}

static void *take(size room) {
    size bytes = length_for(room);
    struct block *block = found(bytes);
    if (!block && grow(bytes)) block = found(bytes);
    if (!block) return 0;
    cut(block, bytes);
    taken += block->bytes;
    return at(block, HEAD);
}

void *heap_take(size bytes) {
    return is_granted(bytes) ? take(bytes) : 0;
}

void heap_give(void *given) {
    struct block *block = at(given, -(size)HEAD);
    taken -= block->bytes;
    release(block);
}

void *heap_retake(void *given, size room) {
    if (!is_granted(room)) return 0;
    struct block *block = at(given, -(size)HEAD), *after = at(block, block->bytes);
    size bytes = length_for(room), held = block->bytes;
    if (held < bytes && after->bytes & FREE && held + length_of(after) >= bytes) {
        unlist(after);
        block->bytes += after->bytes;
        at(block, block->bytes)->before = block->bytes;
    }
    if (block->bytes >= bytes) {
        cut(block, bytes);
        taken += block->bytes - held;
        return given;
    }
    void *moved = take(room);
    if (!moved) return 0;
    __builtin_memcpy(moved, given, held - HEAD);
    heap_give(given);
    return moved;
}

void heap_bound(size address) {
    bound = address;
}

void heap_grants(size requests) {
    grants = requests;
}

size heap_taken(void) {
    return taken;
}

// The heap of tools/wasm against a model: a million random requests over a memory that ends, with bounds that come and
// go.
#include <stdint.h>
#include <stdio.h>
#include <stdlib.h>
#include <string.h>
#include "../../tools/wasm/heap.c"

enum { PAGE = 4096, MEMORY = 64 << 20, BLOCKS = 3000, STEPS = 1000000 };

static _Alignas(16) unsigned char memory[MEMORY];
static size reached, most_taken;
static struct {
    unsigned char *at, mark;
    size room;
} model[BLOCKS];

#define want(holds, what) \
    do { \
        if (!(holds)) { \
            fprintf(stderr, "heap: %s, line %d\n", what, __LINE__); \
            exit(1); \
        } \
    } while (0)

size machine_start(void) {
    return (size)memory;
}

size machine_reach(size address) {
    size wanted = (address + PAGE - 1) & ~(size)(PAGE - 1);
    if (wanted > (size)memory + MEMORY) return 0;
    if (wanted > reached) reached = wanted;
    return reached;
}

static uint64_t drawn(void) {
    static uint64_t state = 41;
    state ^= state << 13;
    state ^= state >> 7;
    return state ^= state << 17;
}

// Most blocks are short, and some are long.
static size drawn_room(void) {
    return drawn() % ((size)16 << drawn() % (drawn() % 50 ? 8 : 15));
}

static void is_whole(int place, size room) {
    for (size byte = 0; byte < room; byte++)
        want(model[place].at[byte] == model[place].mark, "a block was written over");
}

static void fill(int place, void *block, size room) {
    size first = (size)block;
    want(first % 16 == 0 && first >= (size)memory && first + room <= reached, "a block lies elsewhere");
    model[place].at = block;
    model[place].room = room;
    model[place].mark = (unsigned char)drawn();
    memset(block, model[place].mark, room);
}

static void step(int place) {
    size room = drawn_room(), held = model[place].room;
    if (!model[place].at) {
        void *block = heap_take(room);
        if (block) fill(place, block, room);
    } else if (drawn() % 3) {
        is_whole(place, held);
        heap_give(model[place].at);
        model[place].at = 0;
        model[place].room = 0;
    } else {
        void *block = heap_retake(model[place].at, room);
        if (block) model[place].at = block;
        is_whole(place, block && room < held ? room : held);
        if (block) fill(place, block, room);
    }
}

// What is taken is what the model has, with at most an eighth more and what a block takes.
static void is_taken(void) {
    size least = 0, most = 0;
    for (int place = 0; place < BLOCKS; place++) {
        if (!model[place].at) continue;
        least += model[place].room + HEAD;
        most += (model[place].room + HEAD) * 9 / 8 + 2 * LEAST;
    }
    want(heap_taken() >= least && heap_taken() <= most, "what is taken is not what the model has");
    if (heap_taken() > most_taken) most_taken = heap_taken();
}

// Each block tells the length of the one before, no two free ones are neighbours, and the last head ends the heap.
static void is_sound(void) {
    size before = 0, was_free = 0, sum = 0;
    for (struct block *it = (struct block *)memory; ; it = at(it, length_of(it))) {
        want(it->before == before, "a block tells another length of the one before");
        want(!(was_free && it->bytes & FREE), "two free blocks are neighbours");
        if (!it->bytes) {
            want((size)it + HEAD == end && end == reached, "the heap ends elsewhere");
            break;
        }
        if (!(it->bytes & FREE)) sum += it->bytes;
        was_free = it->bytes & FREE;
        before = length_of(it);
    }
    want(sum == heap_taken(), "the blocks that are taken");
}

static void random_requests(void) {
    size most = 0;
    for (int time = 0; time < STEPS; time++) {
        if (time % 1000 == 0) {
            most = time / 1000 % 2 ? end + 4 * PAGE : ~(size)0;
            heap_bound(most);
        }
        step((int)(drawn() % BLOCKS));
        want(end <= most, "the heap grows above its bound");
        if (time % 1000 == 999) {
            is_taken();
            is_sound();
        }
    }
}

static void refusals(void) {
    heap_grants(2);
    void *one = heap_take(100), *other = heap_retake(one, 200);
    want(one && other && !heap_take(1) && !heap_retake(other, 300), "two requests are granted, and no more");
    heap_grants(~(size)0);
    heap_give(other);
    want(!heap_take(~(size)0) && !heap_take(MOST + 1) && !heap_take(MEMORY), "more than there is");
}

int main(void) {
    random_requests();
    heap_bound(~(size)0);
    size spanned = end - (size)memory;
    want(spanned <= most_taken + most_taken / 2, "the heap is half as long again as what was ever taken");
    for (int place = 0; place < BLOCKS; place++)
        if (model[place].at) heap_give(model[place].at);
    refusals();
    is_sound();
    want(heap_taken() == 0, "what is taken where nothing is");
    want(length_of((struct block *)memory) + HEAD == end - (size)memory, "all is one free block again");
    printf("%lu KiB taken at the most, in %lu KiB\n", most_taken >> 10, spanned >> 10);
}

// The heap of the module for WebAssembly: blocks of bytes, each of which begins at a multiple of 16.
#ifndef HEAP_H
#define HEAP_H

typedef unsigned long size;

// The machine's memory: where the heap begins, a multiple of 16; and the memory's end, a multiple of 16, once it
// reaches so far, or 0 where the machine has no more.
size machine_start(void);
size machine_reach(size address);

// Takes a block of so many bytes. Null: refused.
void *heap_take(size bytes);

// Makes a block longer or shorter, and moves it where it has to. Null: refused, and the block is as it was.
void *heap_retake(void *block, size bytes);

// Gives a block back.
void heap_give(void *block);

// The memory's end stays at or below this address: what would reach further is refused.
void heap_bound(size address);

// So many requests are granted from now on, and the ones after them are refused.
void heap_grants(size requests);

// How many bytes are taken, with 16 for each block.
size heap_taken(void);

#endif

// What the programs for arm64 have beside what is proved and the calls for memory: the kit's calls for the words of a
// command and for errno, over those of C. The kit has them for x86-64 alone.
#include <errno.h>
#include <stddef.h>
#include <string.h>

enum { MISSING = -1, TOO_LONG = -2 };

static size_t count;
static char **words;

// The C library hands the words of the command to whatever runs before main.
__attribute__((constructor)) static void keep(int many, char **given) {
    count = (size_t)many;
    words = given;
}

// Writes a word to a block, and gives its length; where it is too long, the block is full.
ptrdiff_t rattle_arg(size_t place, unsigned char *block, size_t room) {
    if (place >= count || !words[place]) return MISSING;
    size_t length = strlen(words[place]);
    memcpy(block, words[place], length < room ? length : room);
    return length <= room ? (ptrdiff_t)length : TOO_LONG;
}

int rattle_errno(void) {
    return errno;
}

void rattle_set_errno(int number) {
    errno = number;
}

// Stands between a program and its C library, and counts the requests for memory that it makes. The request whose number
// stands in REFUSE is refused. At the end COUNT, if it names a file, gets how many requests there were, and how many of
// them were for at least as many bytes as LARGE says.
#include <errno.h>
#include <fcntl.h>
#include <stdio.h>
#include <stdlib.h>
#include <unistd.h>

extern void *__libc_malloc(size_t size);
extern void *__libc_calloc(size_t count, size_t size);
extern void *__libc_realloc(void *block, size_t size);
extern void *__libc_memalign(size_t alignment, size_t size);

static unsigned long requests, large, refused, least = ~0UL;

__attribute__((constructor)) static void begin(void) {
    const char *number = getenv("REFUSE"), *size = getenv("LARGE");
    refused = number ? strtoul(number, NULL, 10) : 0;
    least = size ? strtoul(size, NULL, 10) : ~0UL;
    requests = large = 0;
}

__attribute__((destructor)) static void end(void) {
    const char *name = getenv("COUNT");
    int file = name ? open(name, O_WRONLY | O_CREAT | O_TRUNC, 0600) : -1;
    char text[64];
    int length = snprintf(text, sizeof text, "%lu %lu\n", requests, large);
    if (file >= 0 && write(file, text, length) == length) close(file);
}

static int is_refused(size_t size) {
    requests += 1;
    large += size >= least;
    if (requests != refused) return 0;
    errno = ENOMEM;
    return 1;
}

void *malloc(size_t size) { return is_refused(size) ? NULL : __libc_malloc(size); }

void *calloc(size_t count, size_t size) { return is_refused(count * size) ? NULL : __libc_calloc(count, size); }

void *realloc(void *block, size_t size) { return is_refused(size) ? NULL : __libc_realloc(block, size); }

void *aligned_alloc(size_t alignment, size_t size) {
    return is_refused(size) ? NULL : __libc_memalign(alignment, size);
}

int posix_memalign(void **block, size_t alignment, size_t size) {
    if (is_refused(size)) return ENOMEM;
    *block = __libc_memalign(alignment, size);
    return *block ? 0 : ENOMEM;
}

// What the callers share: a file's bytes, and a line that tells what is not as it should be.
#include "icu_locale.h"
#include <stdio.h>
#include <stdlib.h>
#include <string.h>

static int faults;

static inline void want(int holds, const char *what) {
    if (!holds) {
        printf("%s\n", what);
        faults += 1;
    }
}

// The bytes of a file, in a block of exactly that size.
static inline uint8_t *bytes_of(const char *path, size_t *length) {
    FILE *file = fopen(path, "rb");
    if (!file || fseek(file, 0, SEEK_END)) exit(2);
    *length = (size_t)ftell(file);
    rewind(file);
    uint8_t *bytes = malloc(*length ? *length : 1);
    if (!bytes || fread(bytes, 1, *length, file) != *length) exit(2);
    fclose(file);
    return bytes;
}

// A text's bytes in a block of exactly that size, so that a read behind it is seen.
static inline uint8_t *copy_of(const char *text) {
    size_t length = strlen(text);
    uint8_t *bytes = malloc(length ? length : 1);
    if (!bytes) exit(2);
    memcpy(bytes, text, length);
    return bytes;
}

// Asks with the room of exactly so many bytes. The answer's text stands in `text` behind it.
static inline int32_t ask(struct icu_locale *handle, const char *command, const char *line, size_t room, char *text,
                          size_t *written) {
    uint8_t *words = copy_of(command), *bytes = copy_of(line), *out = malloc(room ? room : 1);
    if (!out) exit(2);
    memset(out, '#', room ? room : 1);
    int32_t number = icu_locale_answer(handle, words, strlen(command), bytes, strlen(line), out, room, written);
    size_t told = number == ICU_LOCALE_ACCEPTED || number == ICU_LOCALE_REFUSED ? *written : 0;
    memcpy(text, out, told);
    text[told] = 0;
    for (size_t place = told; place < room; place++)
        want(out[place] == '#', "a byte of out behind the answer is written");
    free(words);
    free(bytes);
    free(out);
    return number;
}

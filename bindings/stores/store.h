// What the extensions of PostgreSQL and SQLite share: a question and its answer, the key, the tables, and names by CLDR's
// data. An extension says first how memory is taken and let go: `take` answers null where there is none, and ends nothing.
#ifndef STORE_H
#define STORE_H

#include <errno.h>
#include <stdio.h>
#include <string.h>
#include <zlib.h>

#include "icu_locale.h"

static inline void *take(size_t size);
static inline void let_go(void *memory);

// A call cannot be cancelled, so these are the longest text and the longest list, in bytes.
#define LONGEST 65535
#define LONGEST_LIST (1024 * 1024)
// How many locales a backend or a connection keeps the names in.
#define KEPT_NAMES 16

// Beside the numbers of the library: there are no names in a locale, and a file cannot be read, as errno says.
enum { NO_NAMES = -1, NO_FILE = -2 };

extern const uint8_t store_tables[], store_tables_end[], store_supplement[], store_supplement_end[];

// An answer without its mark; a refusal is its name alone. It is in `room`, or in memory that is let go by `forget`.
struct answer {
    int32_t said;
    size_t length;
    uint8_t *text, *taken;
    uint8_t room[232];
};

static inline void forget(struct answer *answer) {
    if (answer->taken != NULL)
        let_go(answer->taken);
    answer->taken = NULL;
}

static inline void ask(struct icu_locale *handle, const char *command, const void *line, size_t length, struct answer *answer) {
    size_t words = strlen(command);
    answer->text = answer->room;
    answer->taken = NULL;
    answer->said = icu_locale_answer(handle, (const uint8_t *)command, words, line, length, answer->room,
                                     sizeof answer->room, &answer->length);
    if (answer->said == ICU_LOCALE_ROOM) {
        answer->text = answer->taken = take(answer->length);
        answer->said = answer->taken == NULL
                           ? ICU_LOCALE_MEMORY
                           : icu_locale_answer(handle, (const uint8_t *)command, words, line, length, answer->taken,
                                               answer->length, &answer->length);
    }
    if (answer->said == ICU_LOCALE_REFUSED) { // `?` and a tab come before the name
        answer->text += 2;
        answer->length -= 2;
    } else if (answer->said != ICU_LOCALE_ACCEPTED)
        forget(answer);
    else if (answer->length >= 2 && answer->text[answer->length - 2] == '\t')
        answer->length -= 2;
}

// Asks a second question of the answer to a first one, which goes.
static inline void ask_of(struct icu_locale *handle, const char *command, struct answer *first, struct answer *answer) {
    if (first->said == ICU_LOCALE_ACCEPTED)
        ask(handle, command, first->text, first->length, answer);
    else { // what is no answer is short, and in its room
        *answer = *first;
        answer->text = answer->room + (first->text - first->room);
        answer->taken = NULL;
    }
    forget(first);
}

// The answer of a command to the canonical form of a line.
static inline void ask_canonical(struct icu_locale *handle, const char *command, const void *line, size_t length,
                          struct answer *answer) {
    struct answer form;
    ask(handle, "locales canonicalize", line, length, &form);
    ask_of(handle, command, &form, answer);
}

// Reads tables and a supplement into a handle that is zero, which stays so at a fault.
static inline int32_t open_tables(struct icu_locale *handle, const void *tables, size_t tables_length, const void *supplement,
                           size_t supplement_length) {
    int32_t said = icu_locale_open(tables, tables_length, handle);
    if (said == ICU_LOCALE_DONE) {
        said = icu_locale_supplement(handle, supplement, supplement_length);
        if (said != ICU_LOCALE_DONE)
            icu_locale_close(handle);
    }
    return said;
}

// The tables that are in the extension.
static inline int32_t open_base(struct icu_locale *handle) {
    return open_tables(handle, store_tables, store_tables_end - store_tables, store_supplement,
                       store_supplement_end - store_supplement);
}

// What is served to a reader: its place in the list, counted from 0, or -1 where it is none.
static inline long place_of(const struct answer *served) {
    long place = 0;
    size_t i = 0;
    for (; i < served->length && served->text[i] >= '0' && served->text[i] <= '9'; i++)
        place = place * 10 + (served->text[i] - '0');
    return i == 0 ? -1 : place;
}

#endif

// What the files of the module share.
#ifndef MODULE_H
#define MODULE_H

#include "postgres.h"

#include "catalog/pg_type.h"
#include "fmgr.h"
#include "utils/builtins.h"
#include "utils/memutils.h"

#include "../stores/names.h"

#define FUNCTION(name)                                                                                                         \
    PG_FUNCTION_INFO_V1(name);                                                                                                 \
    Datum name(PG_FUNCTION_ARGS)

static inline void *take(size_t size) {
    return palloc_extended(size, MCXT_ALLOC_NO_OOM | MCXT_ALLOC_HUGE);
}

static inline void let_go(void *memory) {
    pfree(memory);
}

// Two versions of the module may be in one backend, and share no name.
#pragma GCC visibility push(hidden)

// The handle to the tables of the module.
extern struct icu_locale *base_handle(void);

// Each raises an error: of memory; where tables could not be read; where a text is too long; where an answer is none.
extern void no_memory(void) pg_attribute_noreturn();
extern void check_read(int32_t said, const char *what);
extern void check_length(size_t length, size_t longest);
extern void check_answer(const void *line, size_t length, const struct answer *answer);

// A text as a message repeats it.
extern char *clipped(const void *text, size_t length);

#pragma GCC visibility pop

#endif

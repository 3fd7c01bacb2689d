// For bench/stores alone: what ICU's functions of C do of the same, in PostgreSQL.
#include "postgres.h"

#include <unicode/uloc.h>

#include "fmgr.h"
#include "utils/builtins.h"

PG_MODULE_MAGIC;

#define ROOM 200

// The canonical form of a text, or the minimal form of that, as a tag.
static Datum form(text *line, bool is_minimal) {
    char given[ROOM], canonical[ROOM], minimal[ROOM], tag[ROOM];
    UErrorCode error = U_ZERO_ERROR;
    int32_t length;
    text_to_cstring_buffer(line, given, sizeof given);
    uloc_canonicalize(given, canonical, ROOM, &error);
    if (is_minimal)
        uloc_minimizeSubtags(canonical, minimal, ROOM, &error);
    length = uloc_toLanguageTag(is_minimal ? minimal : canonical, tag, ROOM, false, &error);
    if (U_FAILURE(error))
        elog(ERROR, "ICU answers %d at \"%s\"", (int)error, given);
    return PointerGetDatum(cstring_to_text_with_len(tag, length));
}

PG_FUNCTION_INFO_V1(icu_canonical);

Datum icu_canonical(PG_FUNCTION_ARGS) {
    return form(PG_GETARG_TEXT_PP(0), false);
}

PG_FUNCTION_INFO_V1(icu_minimal);

Datum icu_minimal(PG_FUNCTION_ARGS) {
    return form(PG_GETARG_TEXT_PP(0), true);
}

// Locale identifiers in PostgreSQL, over libicu_locale.
//
// The tables are in the module. They are read once for each backend, at its first call, or once for the cluster where the
// module is in shared_preload_libraries.
//
// No call of the library calls the server, so none is left by a longjmp, and what it holds is released before an error is
// raised. The library's memory is malloc's: palloc aligns to 8 bytes, and the library wants what malloc does.
#include "module.h"

#include <limits.h>

#include "libpq/pqformat.h"
#include "mb/pg_wchar.h"
#include "miscadmin.h"
#include "utils/array.h"
#if PG_VERSION_NUM >= 160000
#include "varatt.h"
#endif

PG_MODULE_MAGIC;

void _PG_init(void);

// How much of a text a message repeats, in bytes.
#define CLIP 100

static struct icu_locale base;

void no_memory(void) {
    ereport(ERROR, (errcode(ERRCODE_OUT_OF_MEMORY), errmsg("out of memory"),
                    errdetail("The locale library was refused memory.")));
}

void check_read(int32_t said, const char *what) {
    if (said == ICU_LOCALE_MEMORY)
        no_memory();
    if (said != ICU_LOCALE_DONE)
        ereport(ERROR, (errcode(ERRCODE_DATA_CORRUPTED), errmsg("could not read the %s of locales: %d", what, (int)said)));
}

struct icu_locale *base_handle(void) {
    if (base.at == NULL)
        check_read(open_base(&base), "tables");
    return &base;
}

void _PG_init(void) {
    struct answer answer;
    if (process_shared_preload_libraries_in_progress) // the children of the postmaster share what is read here
        ask(base_handle(), "locales key", "en", 2, &answer);
}

char *clipped(const void *text, size_t length) {
    int kept = length > CLIP ? pg_mbcliplen(text, length > INT_MAX ? INT_MAX : (int)length, CLIP) : (int)length;
    char *shown = pnstrdup(text, kept);
    return length > CLIP ? psprintf("%s...", shown) : shown;
}

void check_length(size_t length, size_t longest) {
    if (length > longest)
        ereport(ERROR, (errcode(ERRCODE_PROGRAM_LIMIT_EXCEEDED), errmsg("text of %zu bytes is too long for a locale", length),
                        errdetail("At most %zu bytes are read.", longest)));
}

// Raises an error where an answer is none; what is refused as a locale, and is the name of one of POSIX, is told so.
void check_answer(const void *line, size_t length, const struct answer *answer) {
    struct answer posix;
    char *why, *shown = NULL;
    if (answer->said == ICU_LOCALE_ACCEPTED)
        return;
    if (answer->said == ICU_LOCALE_MEMORY)
        no_memory();
    if (answer->said != ICU_LOCALE_REFUSED)
        ereport(ERROR, (errcode(ERRCODE_INTERNAL_ERROR), errmsg("the locale library answers %d", (int)answer->said)));
    why = pnstrdup((const char *)answer->text, answer->length);
    ask(base_handle(), "posix canonicalize", line, length, &posix);
    if (posix.said == ICU_LOCALE_ACCEPTED)
        shown = clipped(posix.text, posix.length);
    ereport(ERROR, (errcode(ERRCODE_INVALID_PARAMETER_VALUE),
                    errmsg("invalid locale identifier \"%s\": %s", clipped(line, length), why),
                    shown == NULL ? 0 : errhint("As the name of a POSIX locale it is \"%s\": locale_canonical(..., 'posix').", shown)));
}

static text *text_of(const struct answer *answer) {
    return cstring_to_text_with_len((const char *)answer->text, answer->length);
}

// The answer to a line of the first argument: of a command to its canonical form, or of a command to itself.
static void ask_argument(FunctionCallInfo fcinfo, const char *command, bool is_canonical_first, struct answer *answer) {
    text *line = PG_GETARG_TEXT_PP(0);
    size_t length = VARSIZE_ANY_EXHDR(line);
    check_length(length, LONGEST);
    if (is_canonical_first)
        ask_canonical(base_handle(), command, VARDATA_ANY(line), length, answer);
    else
        ask(base_handle(), command, VARDATA_ANY(line), length, answer);
    check_answer(VARDATA_ANY(line), length, answer);
}

static text *key_of(const void *line, size_t length) {
    struct answer key;
    check_length(length, LONGEST);
    ask(base_handle(), "locales key", line, length, &key);
    check_answer(line, length, &key);
    return text_of(&key);
}

FUNCTION(pg_icu_locale_key) {
    text *line = PG_GETARG_TEXT_PP(0);
    PG_RETURN_TEXT_P(key_of(VARDATA_ANY(line), VARSIZE_ANY_EXHDR(line)));
}

FUNCTION(pg_icu_locale_identifier_key) {
    struct answer answer;
    ask_argument(fcinfo, "locales identifier-key", false, &answer);
    PG_RETURN_TEXT_P(text_of(&answer));
}

// The type locale: a text that is its own key.
FUNCTION(pg_icu_locale_in) {
    char *line = PG_GETARG_CSTRING(0);
    PG_RETURN_TEXT_P(key_of(line, strlen(line)));
}

FUNCTION(pg_icu_locale_recv) {
    StringInfo message = (StringInfo)PG_GETARG_POINTER(0);
    int length;
    char *line = pq_getmsgtext(message, message->len - message->cursor, &length);
    PG_RETURN_TEXT_P(key_of(line, length));
}

FUNCTION(pg_icu_locale_canonical) {
    struct answer answer;
    ask_argument(fcinfo, "locales canonicalize", false, &answer);
    PG_RETURN_TEXT_P(text_of(&answer));
}

FUNCTION(pg_icu_locale_canonical_of) {
    struct answer answer;
    char *syntax = text_to_cstring(PG_GETARG_TEXT_PP(1));
    if (strcmp(syntax, "locales") != 0 && strcmp(syntax, "bcp47") != 0 && strcmp(syntax, "posix") != 0)
        ereport(ERROR, (errcode(ERRCODE_INVALID_PARAMETER_VALUE),
                        errmsg("invalid syntax of locales \"%s\"", clipped(syntax, strlen(syntax))),
                        errhint("There are \"locales\", \"bcp47\" and \"posix\".")));
    ask_argument(fcinfo, psprintf("%s canonicalize", syntax), false, &answer);
    PG_RETURN_TEXT_P(text_of(&answer));
}

FUNCTION(pg_icu_locale_maximal) {
    struct answer answer;
    ask_argument(fcinfo, "locales maximize", true, &answer);
    PG_RETURN_TEXT_P(text_of(&answer));
}

FUNCTION(pg_icu_locale_minimal) {
    struct answer answer;
    ask_argument(fcinfo, "locales minimize", true, &answer);
    PG_RETURN_TEXT_P(text_of(&answer));
}

// `parts` asks no table, so no answer changes with the data.
FUNCTION(pg_icu_locale_is) {
    text *line = PG_GETARG_TEXT_PP(0);
    size_t length = VARSIZE_ANY_EXHDR(line);
    struct answer answer;
    if (length > LONGEST)
        PG_RETURN_BOOL(false);
    ask(base_handle(), "locales parts", VARDATA_ANY(line), length, &answer);
    if (answer.said != ICU_LOCALE_REFUSED)
        check_answer(VARDATA_ANY(line), length, &answer);
    PG_RETURN_BOOL(answer.said == ICU_LOCALE_ACCEPTED);
}

FUNCTION(pg_icu_locale_direction) {
    struct answer answer;
    ask_argument(fcinfo, "locales direction", true, &answer);
    if (answer.length == 4) // none
        PG_RETURN_NULL();
    PG_RETURN_TEXT_P(text_of(&answer));
}

FUNCTION(pg_icu_locale_chain) {
    struct answer answer;
    struct piece rest;
    ArrayBuildState *links = NULL;
    ask_argument(fcinfo, "locales fallback", true, &answer);
    rest = (struct piece){(const char *)answer.text, answer.length};
    while (rest.length > 0) {
        struct piece link = cut(&rest, ' ');
        Datum element = PointerGetDatum(cstring_to_text_with_len(link.at, link.length));
        links = accumArrayResult(links, element, false, TEXTOID, CurrentMemoryContext);
    }
    PG_RETURN_DATUM(makeArrayResult(links, CurrentMemoryContext));
}

FUNCTION(pg_icu_locale_distance) {
    StringInfoData both;
    struct answer answer;
    initStringInfo(&both);
    for (int i = 0; i < 2; i++) { // each alone: a space in one would make three of two
        text *line = PG_GETARG_TEXT_PP(i);
        size_t length = VARSIZE_ANY_EXHDR(line);
        check_length(length, LONGEST);
        ask(base_handle(), "locales canonicalize", VARDATA_ANY(line), length, &answer);
        check_answer(VARDATA_ANY(line), length, &answer);
        appendBinaryStringInfo(&both, i == 0 ? "" : " ", i);
        appendBinaryStringInfo(&both, (const char *)answer.text, answer.length);
        forget(&answer);
    }
    ask(&base, "locales distance", both.data, both.len, &answer);
    check_answer(both.data, both.len, &answer);
    PG_RETURN_INT32(place_of(&answer));
}

FUNCTION(pg_icu_locale_data_version) {
    PG_RETURN_TEXT_P(cstring_to_text(DATA_VERSION));
}

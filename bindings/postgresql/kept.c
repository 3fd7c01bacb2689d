// What a backend keeps beside the tables: names in some locales, and lists of what is available.
#include "module.h"

#include <errno.h>

#include "lib/stringinfo.h"
#include "mb/pg_wchar.h"
#include "miscadmin.h"
#include "utils/array.h"
#if PG_VERSION_NUM >= 160000
#include "varatt.h"
#endif

#define KEPT_LISTS 8

// A list, by the bytes of its array, which are in TopMemoryContext; null where none is kept.
typedef struct Available {
    ArrayType *array;
    uint64 used;
    struct icu_locale handle;
} Available;

static struct names names[KEPT_NAMES];
static Available lists[KEPT_LISTS];
static uint64 clock_hand;

// Raises an error where there are no names: the folder is told, since it may be the one that is missing.
static void check_names(int32_t said, text *reader, const struct answer *chain) {
    size_t length = VARSIZE_ANY_EXHDR(reader);
    if (said == NO_FILE)
        ereport(ERROR, (errcode_for_file_access(), errmsg("could not read the names of locales in \"%s\": %m", NAMES),
                        errhint("Debian's package icu-locale-data has them.")));
    if (said == NO_NAMES)
        ereport(ERROR, (errcode(ERRCODE_INVALID_PARAMETER_VALUE),
                        errmsg("there are no names of locales in \"%s\"", clipped(VARDATA_ANY(reader), length)),
                        errdetail("The folder is \"%s\".", NAMES)));
    if (said == ICU_LOCALE_REFUSED)
        check_answer(VARDATA_ANY(reader), length, chain);
    check_read(said, "names");
}

FUNCTION(pg_icu_locale_name) {
    text *line = PG_GETARG_TEXT_PP(0), *reader = PG_GETARG_TEXT_PP(1);
    struct piece in = {VARDATA_ANY(reader), VARSIZE_ANY_EXHDR(reader)};
    size_t length = VARSIZE_ANY_EXHDR(line);
    struct names *found = NULL;
    struct answer form, answer;
    char *converted;
    check_length(length, LONGEST);
    check_length(in.length, LONGEST);
    check_names(names_for(base_handle(), names, NAMES, in, &answer, &found), reader, &answer);
    ask(base_handle(), "locales canonicalize", VARDATA_ANY(line), length, &form);
    ask_of(&found->handle, found->command, &form, &answer);
    check_answer(VARDATA_ANY(line), length, &answer);
    converted = pg_any_to_server((char *)answer.text, answer.length, PG_UTF8); // names are UTF-8
    PG_RETURN_TEXT_P(converted == (char *)answer.text ? cstring_to_text_with_len(converted, answer.length)
                                                      : cstring_to_text(converted));
}

// Raises an error where an identifier is refused. No table is asked.
static void check_identifier(const char *at, size_t length) {
    struct answer answer;
    ask(base_handle(), "locales parts", at, length, &answer);
    check_answer(at, length, &answer);
    forget(&answer);
}

// The identifiers of an array with a space between two. One with a space in it would be two, and an empty one none.
static void join(ArrayType *array, StringInfo list) {
    Datum *elements;
    bool *nulls;
    int count;
    deconstruct_array(array, TEXTOID, -1, false, TYPALIGN_INT, &elements, &nulls, &count);
    initStringInfo(list);
    for (int i = 0; i < count; i++) {
        const char *at = nulls[i] ? NULL : VARDATA_ANY(DatumGetPointer(elements[i]));
        size_t length = nulls[i] ? 0 : VARSIZE_ANY_EXHDR(DatumGetPointer(elements[i]));
        if (nulls[i])
            ereport(ERROR, (errcode(ERRCODE_NULL_VALUE_NOT_ALLOWED), errmsg("what is available must not have nulls")));
        check_length(list->len + length, LONGEST_LIST);
        if (length == 0 || memchr(at, ' ', length) != NULL)
            check_identifier(at, length);
        appendBinaryStringInfo(list, " ", i > 0);
        appendBinaryStringInfo(list, at, length);
        CHECK_FOR_INTERRUPTS();
    }
}

// Raises the error of the first text of a list that is no identifier.
static void check_list(const StringInfo list) {
    struct piece rest = {list->data, list->len}, one;
    size_t place;
    int32_t said = icu_locale_list_fault((const uint8_t *)"locales", 7, (const uint8_t *)list->data, list->len, &place);
    if (said != ICU_LOCALE_LIST)
        check_read(said, "list");
    do
        one = cut(&rest, ' ');
    while (place-- > 0);
    check_identifier(one.at, one.length);
}

static void read_list(Available *place, ArrayType *array) {
    StringInfoData list;
    int32_t said;
    join(array, &list);
    said = icu_locale_available_in(base_handle(), (const uint8_t *)"locales", 7, (const uint8_t *)list.data, list.len,
                                   &place->handle);
    if (said == ICU_LOCALE_LIST)
        check_list(&list);
    check_read(said, "list");
    pfree(list.data);
    place->array = MemoryContextAlloc(TopMemoryContext, VARSIZE(array));
    memcpy(place->array, array, VARSIZE(array));
}

// The handle to a list: kept, or read in the place of the one that was asked the longest ago.
static struct icu_locale *list_of(ArrayType *array) {
    Available *place = lists;
    for (int i = 0; i < KEPT_LISTS; i++) {
        Available *list = &lists[i];
        if (list->array != NULL && VARSIZE(list->array) == VARSIZE(array)
            && memcmp(list->array, array, VARSIZE(array)) == 0) {
            list->used = ++clock_hand;
            return &list->handle;
        }
        if (list->used < place->used)
            place = list;
    }
    if (place->array != NULL)
        pfree(place->array);
    place->array = NULL;
    read_list(place, array);
    place->used = ++clock_hand;
    return &place->handle;
}

// The place of what is served, counted from 0, or -1.
static int served(FunctionCallInfo fcinfo, ArrayType *array) {
    text *header = PG_GETARG_TEXT_PP(0);
    size_t length = VARSIZE_ANY_EXHDR(header);
    struct answer answer;
    check_length(length, LONGEST);
    if (ARR_NDIM(array) > 1)
        ereport(ERROR, (errcode(ERRCODE_ARRAY_SUBSCRIPT_ERROR), errmsg("what is available must have one dimension")));
    ask(list_of(array), "locales serve", VARDATA_ANY(header), length, &answer);
    check_answer(VARDATA_ANY(header), length, &answer);
    return place_of(&answer);
}

// As it is spelled there.
FUNCTION(pg_icu_locale_serve) {
    ArrayType *array = PG_GETARG_ARRAYTYPE_P(1);
    int place = served(fcinfo, array), subscript;
    bool is_null;
    if (place < 0)
        PG_RETURN_NULL();
    subscript = ARR_LBOUND(array)[0] + place;
    PG_RETURN_DATUM(array_get_element(PointerGetDatum(array), 1, &subscript, -1, -1, false, TYPALIGN_INT, &is_null));
}

FUNCTION(pg_icu_locale_serve_place) {
    ArrayType *array = PG_GETARG_ARRAYTYPE_P(1);
    int place = served(fcinfo, array);
    if (place < 0)
        PG_RETURN_NULL();
    PG_RETURN_INT32(ARR_LBOUND(array)[0] + place);
}

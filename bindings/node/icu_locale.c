// The calls of icu_locale.h for Node.js, by Node-API: `open(json)` makes an object that stands for tables, and
// `supplement`, `lendNames`, `flatNames`, `share`, `available`, `answer`, `giveBack`, `missing`, `dataName`, `negotiate`,
// `isSettled`, `lend` and `close` take one; `borrow(number)` makes one of what another worker has lent. index.js has what is
// made of these.
#include "icu_locale.h"
#include <node_api.h>
#include <pthread.h>
#include <stdlib.h>
#include <string.h>

// A copy of names that are lent to tables, and how many handles have these: of objects, which may be those of several
// workers, and of loans. They are counted where the lock is held.
struct names {
    size_t handles;
    uint8_t flat[];
};

// A handle that other workers of the process make theirs of, by its number. It is used where the lock is held.
struct loan {
    struct icu_locale handle;
    struct names *names;
    uint64_t number;
    struct loan *next;
};

// An object's handle, the names that are lent to its tables, what it has lent, and the room of its answers. All go when the
// object is let go.
struct tables {
    struct icu_locale handle;
    struct names *names;
    struct loan *loan;
    uint8_t *out;
    size_t room;
};

enum { FIRST_ROOM = 256 };

static pthread_mutex_t lending = PTHREAD_MUTEX_INITIALIZER;
static struct loan *loans = NULL;
static uint64_t last_loan = 0;

// Has names in place of others, where the lock is held. Those that no handle has any more go.
static void have_names(struct names **place, struct names *names) {
    struct names *before = *place;
    if (names) names->handles += 1;
    *place = names;
    if (before && --before->handles == 0) free(before);
}

static void keep_names(struct names **place, struct names *names) {
    if (!*place && !names) return;
    pthread_mutex_lock(&lending);
    have_names(place, names);
    pthread_mutex_unlock(&lending);
}

static void end_loan(struct tables *tables) {
    if (!tables->loan) return;
    pthread_mutex_lock(&lending);
    struct loan **at = &loans;
    while (*at != tables->loan) at = &(*at)->next;
    *at = tables->loan->next;
    icu_locale_close(&tables->loan->handle);
    have_names(&tables->loan->names, NULL);
    pthread_mutex_unlock(&lending);
    free(tables->loan);
    tables->loan = NULL;
}

static void let_go(napi_env env, void *data, void *hint) {
    struct tables *tables = data;
    (void)env;
    (void)hint;
    end_loan(tables);
    icu_locale_close(&tables->handle);
    keep_names(&tables->names, NULL);
    free(tables->out);
    free(tables);
}

static napi_value number_of(napi_env env, int32_t number) {
    napi_value value = NULL;
    napi_create_int32(env, number, &value);
    return value;
}

static struct tables *made(napi_env env, napi_value *object) {
    struct tables *tables = calloc(1, sizeof *tables);
    if (!tables) return NULL;
    tables->room = FIRST_ROOM;
    tables->out = malloc(tables->room);
    if (tables->out && napi_create_external(env, tables, let_go, NULL, object) == napi_ok) return tables;
    free(tables->out);
    free(tables);
    return NULL;
}

// The bytes of a Buffer or another view of bytes. A length of 0 has a place too, since C wants one.
static int bytes_of(napi_env env, napi_value value, const uint8_t **bytes, size_t *length) {
    static const uint8_t none = 0;
    void *data = NULL;
    bool is_buffer = false;
    if (napi_is_buffer(env, value, &is_buffer) != napi_ok || !is_buffer) return 0;
    if (napi_get_buffer_info(env, value, &data, length) != napi_ok) return 0;
    *bytes = *length && data ? data : &none;
    return 1;
}

static struct tables *tables_of(napi_env env, napi_value value) {
    void *data = NULL;
    napi_valuetype type;
    if (napi_typeof(env, value, &type) != napi_ok || type != napi_external) return NULL;
    return napi_get_value_external(env, value, &data) == napi_ok ? data : NULL;
}

static napi_value wrong(napi_env env) {
    napi_throw_type_error(env, NULL, "other values than the call takes");
    return NULL;
}

// open(json): the object, or the number of a refusal.
static napi_value open_tables(napi_env env, napi_callback_info info) {
    size_t count = 1, length;
    napi_value values[1], object = NULL;
    const uint8_t *json;
    if (napi_get_cb_info(env, info, &count, values, NULL, NULL) != napi_ok || count < 1) return wrong(env);
    if (!bytes_of(env, values[0], &json, &length)) return wrong(env);
    struct tables *tables = made(env, &object);
    if (!tables) return number_of(env, ICU_LOCALE_MEMORY);
    int32_t number = icu_locale_open(json, length, &tables->handle);
    return number == ICU_LOCALE_DONE ? object : number_of(env, number);
}

// supplement(tables, json): the number of what it did.
static napi_value supplement(napi_env env, napi_callback_info info) {
    size_t count = 2, length;
    napi_value values[2];
    const uint8_t *json;
    if (napi_get_cb_info(env, info, &count, values, NULL, NULL) != napi_ok || count < 2) return wrong(env);
    struct tables *tables = tables_of(env, values[0]);
    if (!tables || !bytes_of(env, values[1], &json, &length)) return wrong(env);
    return number_of(env, icu_locale_supplement(&tables->handle, json, length));
}

// lendNames(tables, names): the number of what it did. The names are copied, so that no worker's memory is lent to another.
static napi_value lend_names(napi_env env, napi_callback_info info) {
    size_t count = 2, length;
    napi_value values[2];
    const uint8_t *flat;
    if (napi_get_cb_info(env, info, &count, values, NULL, NULL) != napi_ok || count < 2) return wrong(env);
    struct tables *tables = tables_of(env, values[0]);
    if (!tables || !bytes_of(env, values[1], &flat, &length)) return wrong(env);
    struct names *names = malloc(sizeof *names + length + 1);
    if (!names) return number_of(env, ICU_LOCALE_MEMORY);
    names->handles = 0;
    memcpy(names->flat, flat, length);
    int32_t number = icu_locale_lend_names(&tables->handle, names->flat, length);
    if (number == ICU_LOCALE_DONE)
        keep_names(&tables->names, names);
    else
        free(names);
    return number_of(env, number);
}

// share(tables): a second object, or the number of a refusal.
static napi_value share_tables(napi_env env, napi_callback_info info) {
    size_t count = 1;
    napi_value values[1], object = NULL;
    if (napi_get_cb_info(env, info, &count, values, NULL, NULL) != napi_ok || count < 1) return wrong(env);
    struct tables *from = tables_of(env, values[0]), *to;
    if (!from) return wrong(env);
    if (!(to = made(env, &object))) return number_of(env, ICU_LOCALE_MEMORY);
    int32_t number = icu_locale_share(&from->handle, &to->handle);
    if (number == ICU_LOCALE_DONE) keep_names(&to->names, from->names);
    return number == ICU_LOCALE_DONE ? object : number_of(env, number);
}

static int32_t make_loan(struct tables *tables) {
    struct loan *loan = calloc(1, sizeof *loan);
    if (!loan) return ICU_LOCALE_MEMORY;
    int32_t number = icu_locale_share(&tables->handle, &loan->handle);
    if (number != ICU_LOCALE_DONE) {
        free(loan);
        return number;
    }
    pthread_mutex_lock(&lending);
    have_names(&loan->names, tables->names);
    loan->number = ++last_loan;
    loan->next = loans;
    loans = tables->loan = loan;
    pthread_mutex_unlock(&lending);
    return ICU_LOCALE_DONE;
}

// lend(tables): the number of a loan as a BigInt, or that of a refusal.
static napi_value lend(napi_env env, napi_callback_info info) {
    size_t count = 1;
    napi_value values[1], loan = NULL;
    if (napi_get_cb_info(env, info, &count, values, NULL, NULL) != napi_ok || count < 1) return wrong(env);
    struct tables *tables = tables_of(env, values[0]);
    if (!tables) return wrong(env);
    int32_t number = tables->loan ? ICU_LOCALE_DONE : make_loan(tables);
    if (number != ICU_LOCALE_DONE) return number_of(env, number);
    napi_create_bigint_uint64(env, tables->loan->number, &loan);
    return loan;
}

// borrow(number): an object of what was lent, or the number of a refusal, which is that of closed tables where it has ended.
static napi_value borrow(napi_env env, napi_callback_info info) {
    size_t count = 1;
    napi_value values[1], object = NULL;
    uint64_t wanted;
    bool is_whole;
    if (napi_get_cb_info(env, info, &count, values, NULL, NULL) != napi_ok || count < 1) return wrong(env);
    if (napi_get_value_bigint_uint64(env, values[0], &wanted, &is_whole) != napi_ok) return wrong(env);
    struct tables *to = made(env, &object);
    if (!to) return number_of(env, ICU_LOCALE_MEMORY);
    pthread_mutex_lock(&lending);
    struct loan *loan = loans;
    while (loan && loan->number != wanted) loan = loan->next;
    int32_t number = loan ? icu_locale_share(&loan->handle, &to->handle) : ICU_LOCALE_CLOSED;
    if (number == ICU_LOCALE_DONE) have_names(&to->names, loan->names);
    pthread_mutex_unlock(&lending);
    return number == ICU_LOCALE_DONE ? object : number_of(env, number);
}

// available(tables, syntax, list): a second object, which has the list too, or the number of a refusal.
static napi_value available_of(napi_env env, napi_callback_info info) {
    size_t count = 3, syntax_length, length;
    napi_value values[3], object = NULL;
    const uint8_t *syntax, *list;
    if (napi_get_cb_info(env, info, &count, values, NULL, NULL) != napi_ok || count < 3) return wrong(env);
    struct tables *from = tables_of(env, values[0]), *to;
    if (!from || !bytes_of(env, values[1], &syntax, &syntax_length) || !bytes_of(env, values[2], &list, &length))
        return wrong(env);
    if (!(to = made(env, &object))) return number_of(env, ICU_LOCALE_MEMORY);
    int32_t number = icu_locale_available_in(&from->handle, syntax, syntax_length, list, length, &to->handle);
    if (number == ICU_LOCALE_DONE) keep_names(&to->names, from->names);
    return number == ICU_LOCALE_DONE ? object : number_of(env, number);
}

// negotiate(negotiator, syntax, requests): a list of two places, or the number where no request is met and of a refusal.
static napi_value negotiate(napi_env env, napi_callback_info info) {
    size_t count = 3, syntax_length, length, places[2];
    napi_value values[3], list = NULL, place = NULL;
    const uint8_t *syntax, *requests;
    if (napi_get_cb_info(env, info, &count, values, NULL, NULL) != napi_ok || count < 3) return wrong(env);
    struct tables *tables = tables_of(env, values[0]);
    if (!tables || !bytes_of(env, values[1], &syntax, &syntax_length) || !bytes_of(env, values[2], &requests, &length))
        return wrong(env);
    int32_t number = icu_locale_negotiate_in(&tables->handle, syntax, syntax_length, requests, length, &places[0], &places[1]);
    if (number != ICU_LOCALE_MET) return number_of(env, number);
    napi_create_array_with_length(env, 2, &list);
    for (uint32_t at = 0; at < 2; at++) {
        napi_create_int64(env, (int64_t)places[at], &place);
        napi_set_element(env, list, at, place);
    }
    return list;
}

// listFault(syntax, list): the place of the first text that is no identifier, in a list, or the number where there is none.
static napi_value list_fault(napi_env env, napi_callback_info info) {
    size_t count = 2, syntax_length, length, found;
    napi_value values[2], list = NULL, place = NULL;
    const uint8_t *syntax, *texts;
    if (napi_get_cb_info(env, info, &count, values, NULL, NULL) != napi_ok || count < 2) return wrong(env);
    if (!bytes_of(env, values[0], &syntax, &syntax_length) || !bytes_of(env, values[1], &texts, &length)) return wrong(env);
    int32_t number = icu_locale_list_fault(syntax, syntax_length, texts, length, &found);
    if (number != ICU_LOCALE_LIST) return number_of(env, number);
    napi_create_array_with_length(env, 1, &list);
    napi_create_int64(env, (int64_t)found, &place);
    napi_set_element(env, list, 0, place);
    return list;
}

// fault(text): the bytes of the first piece that no locale identifier can have there, in a list, or the number where there is
// none.
static napi_value fault(napi_env env, napi_callback_info info) {
    size_t count = 1, length, bounds[2];
    napi_value values[1], list = NULL, bound = NULL;
    const uint8_t *text;
    if (napi_get_cb_info(env, info, &count, values, NULL, NULL) != napi_ok || count < 1) return wrong(env);
    if (!bytes_of(env, values[0], &text, &length)) return wrong(env);
    int32_t number = icu_locale_fault(text, length, &bounds[0], &bounds[1]);
    if (number != ICU_LOCALE_REFUSED) return number_of(env, number);
    napi_create_array_with_length(env, 2, &list);
    for (uint32_t at = 0; at < 2; at++) {
        napi_create_int64(env, (int64_t)bounds[at], &bound);
        napi_set_element(env, list, at, bound);
    }
    return list;
}

// Has room for so long a text alone, and tells whether there is memory for it.
static int widen(struct tables *tables, size_t room) {
    uint8_t *out = realloc(tables->out, room);
    if (!out) return 0;
    tables->out = out;
    tables->room = room;
    return 1;
}

// The text that a call has written, and else a list of its number and a text.
static napi_value told(napi_env env, struct tables *tables, int32_t number, size_t written) {
    napi_value text = NULL, list = NULL;
    if (napi_create_string_utf8(env, (const char *)tables->out, written, &text) != napi_ok) return wrong(env);
    if (number == ICU_LOCALE_ACCEPTED) return text;
    napi_create_array_with_length(env, 2, &list);
    napi_set_element(env, list, 0, number_of(env, number));
    napi_set_element(env, list, 1, text);
    return list;
}

// answer(tables, command, line): the text of an accepted line, and else a list of a number and a text.
static napi_value answer(napi_env env, napi_callback_info info) {
    size_t count = 3, command_length, line_length, written = 0;
    napi_value values[3];
    const uint8_t *command, *line;
    if (napi_get_cb_info(env, info, &count, values, NULL, NULL) != napi_ok || count < 3) return wrong(env);
    struct tables *tables = tables_of(env, values[0]);
    if (!tables || !bytes_of(env, values[1], &command, &command_length) || !bytes_of(env, values[2], &line, &line_length))
        return wrong(env);
    int32_t number;
    for (;;) {
        number = icu_locale_answer(&tables->handle, command, command_length, line, line_length, tables->out, tables->room,
                                   &written);
        if (number != ICU_LOCALE_ROOM) break;
        if (!widen(tables, written)) return told(env, tables, ICU_LOCALE_MEMORY, 0);
    }
    return told(env, tables, number, written);
}

// giveBack(tables), giveBack(negotiator, syntax, list): lets go what a long answer has taken, here and in the library, whose
// handle comes to hold the same once more. Where memory is refused, it stays.
static napi_value give_back(napi_env env, napi_callback_info info) {
    size_t count = 3, syntax_length, length;
    napi_value values[3];
    const uint8_t *syntax, *list;
    struct icu_locale other = {0};
    if (napi_get_cb_info(env, info, &count, values, NULL, NULL) != napi_ok || count < 1) return wrong(env);
    struct tables *tables = tables_of(env, values[0]);
    if (!tables) return wrong(env);
    bool has_list = count >= 3;
    if (has_list && (!bytes_of(env, values[1], &syntax, &syntax_length) || !bytes_of(env, values[2], &list, &length)))
        return wrong(env);
    widen(tables, FIRST_ROOM);
    if (icu_locale_share(&tables->handle, &other) == ICU_LOCALE_DONE) {
        if (has_list)
            icu_locale_available_in(&other, syntax, syntax_length, list, length, &tables->handle);
        else
            icu_locale_share(&other, &tables->handle);
        icu_locale_close(&other);
    }
    return NULL;
}

// missing(tables, command): the name of the first table that a command needs and the tables leave out, and else a list of a
// number and an empty text.
static napi_value missing(napi_env env, napi_callback_info info) {
    size_t count = 2, length, written = 0;
    napi_value values[2];
    const uint8_t *command;
    if (napi_get_cb_info(env, info, &count, values, NULL, NULL) != napi_ok || count < 2) return wrong(env);
    struct tables *tables = tables_of(env, values[0]);
    if (!tables || !bytes_of(env, values[1], &command, &length)) return wrong(env);
    int32_t number;
    for (;;) {
        number = icu_locale_missing(&tables->handle, command, length, tables->out, tables->room, &written);
        if (number != ICU_LOCALE_ROOM) break;
        if (!widen(tables, written)) return told(env, tables, ICU_LOCALE_MEMORY, 0);
    }
    return told(env, tables, number, written);
}

// dataName(tables): the name of the data, and else a list of a number and an empty text.
static napi_value data_name(napi_env env, napi_callback_info info) {
    size_t count = 1, written = 0;
    napi_value values[1];
    if (napi_get_cb_info(env, info, &count, values, NULL, NULL) != napi_ok || count < 1) return wrong(env);
    struct tables *tables = tables_of(env, values[0]);
    if (!tables) return wrong(env);
    int32_t number;
    for (;;) {
        number = icu_locale_data_name(&tables->handle, tables->out, tables->room, &written);
        if (number != ICU_LOCALE_ROOM) break;
        if (!widen(tables, written)) return told(env, tables, ICU_LOCALE_MEMORY, 0);
    }
    return told(env, tables, number, written);
}

// flatNames(tables): the names as a Buffer, or the number of a refusal.
static napi_value flat_names(napi_env env, napi_callback_info info) {
    size_t count = 1, written = 0;
    napi_value values[1], flat = NULL;
    if (napi_get_cb_info(env, info, &count, values, NULL, NULL) != napi_ok || count < 1) return wrong(env);
    struct tables *tables = tables_of(env, values[0]);
    if (!tables) return wrong(env);
    int32_t number;
    for (;;) {
        number = icu_locale_flat_names(&tables->handle, tables->out, tables->room, &written);
        if (number != ICU_LOCALE_ROOM) break;
        if (!widen(tables, written)) return number_of(env, ICU_LOCALE_MEMORY);
    }
    if (number != ICU_LOCALE_ACCEPTED) return number_of(env, number);
    return napi_create_buffer_copy(env, written, tables->out, NULL, &flat) == napi_ok ? flat : wrong(env);
}

static napi_value is_settled(napi_env env, napi_callback_info info) {
    size_t count = 1;
    napi_value values[1];
    if (napi_get_cb_info(env, info, &count, values, NULL, NULL) != napi_ok || count < 1) return wrong(env);
    struct tables *tables = tables_of(env, values[0]);
    return tables ? number_of(env, icu_locale_is_settled(&tables->handle)) : wrong(env);
}

static napi_value close_tables(napi_env env, napi_callback_info info) {
    size_t count = 1;
    napi_value values[1];
    if (napi_get_cb_info(env, info, &count, values, NULL, NULL) != napi_ok || count < 1) return wrong(env);
    struct tables *tables = tables_of(env, values[0]);
    if (!tables) return wrong(env);
    end_loan(tables);
    icu_locale_close(&tables->handle);
    keep_names(&tables->names, NULL);
    return NULL;
}

NAPI_MODULE_INIT() {
    static const struct {
        const char *name;
        napi_callback call;
    } calls[] = {{"open", open_tables}, {"supplement", supplement}, {"lendNames", lend_names}, {"flatNames", flat_names},
                 {"share", share_tables}, {"available", available_of}, {"answer", answer}, {"giveBack", give_back},
                 {"missing", missing}, {"dataName", data_name}, {"negotiate", negotiate}, {"listFault", list_fault},
                 {"fault", fault}, {"isSettled", is_settled}, {"lend", lend}, {"borrow", borrow}, {"close", close_tables}};
    for (size_t place = 0; place < sizeof calls / sizeof *calls; place++) {
        napi_value call;
        napi_create_function(env, calls[place].name, NAPI_AUTO_LENGTH, calls[place].call, NULL, &call);
        napi_set_named_property(env, exports, calls[place].name, call);
    }
    return exports;
}

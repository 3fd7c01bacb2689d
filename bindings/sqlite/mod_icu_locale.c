// Locale identifiers in SQLite, over libicu_locale: a loadable extension.
//
//     .load mod_icu_locale
//     CREATE UNIQUE INDEX one ON texts(locale_key(tag));
//
// The tables are in the extension, and the process reads them once. Each connection has handles of its own, which its mutex
// guards. Names are read from the folder NAMES, once for each connection and locale.
#include <sqlite3ext.h>
SQLITE_EXTENSION_INIT1

#include <ctype.h>

#include "../stores/names.h"

// How much of a text a message repeats, in bytes.
#define CLIP 60

#define FUNCTION(name) static void name(sqlite3_context *context, int count, sqlite3_value **values)

static inline void *take(size_t size) {
    return sqlite3_malloc64(size);
}

static inline void let_go(void *memory) {
    sqlite3_free(memory);
}

// The tables, under a mutex of SQLite. They are kept until the process ends, as the extension is.
static struct icu_locale base;

struct connection {
    int users;
    struct icu_locale handle;
    struct names names[KEPT_NAMES];
};

static struct connection *of(sqlite3_context *context) {
    return sqlite3_user_data(context);
}

// What is no printable ASCII is not repeated: a program may read messages as UTF-8.
static void refuse(sqlite3_context *context, struct piece line, struct piece why) {
    char shown[CLIP + 1], *message;
    size_t kept = line.length < CLIP ? line.length : CLIP;
    for (size_t i = 0; i < kept; i++)
        shown[i] = isprint((unsigned char)line.at[i]) ? line.at[i] : '?';
    shown[kept] = 0;
    message = sqlite3_mprintf("invalid locale identifier \"%s%s\": %.*s", shown, line.length > kept ? "..." : "",
                              (int)why.length, why.at);
    if (message == NULL)
        sqlite3_result_error_nomem(context);
    else
        sqlite3_result_error(context, message, -1);
    sqlite3_free(message);
}

// Whether an answer is one; what it is else is told.
static int is_answer(sqlite3_context *context, struct piece line, const struct answer *answer) {
    if (answer->said == ICU_LOCALE_ACCEPTED)
        return 1;
    if (answer->said == ICU_LOCALE_MEMORY)
        sqlite3_result_error_nomem(context);
    else if (answer->said == ICU_LOCALE_REFUSED)
        refuse(context, line, (struct piece){(const char *)answer->text, answer->length});
    else
        sqlite3_result_error(context, "the locale library does not answer", -1);
    return 0;
}

static void give(sqlite3_context *context, struct answer *answer) {
    sqlite3_result_text64(context, (char *)answer->text, answer->length, SQLITE_TRANSIENT, SQLITE_UTF8);
    forget(answer);
}

// Whether an argument is a text that may be asked for; one that is too long is told.
static int is_text(sqlite3_context *context, sqlite3_value *value, size_t longest, struct piece *text) {
    if (sqlite3_value_type(value) == SQLITE_NULL)
        return 0;
    text->at = (const char *)sqlite3_value_text(value);
    text->length = sqlite3_value_bytes(value);
    if (text->at == NULL)
        sqlite3_result_error_nomem(context);
    else if (text->length > longest)
        sqlite3_result_error_toobig(context);
    return text->at != NULL && text->length <= longest;
}

// The answer to an argument: of a command to its canonical form, or of a command to itself.
static int ask_argument(sqlite3_context *context, sqlite3_value *value, const char *command, int is_canonical_first,
                        struct answer *answer) {
    struct piece line;
    if (!is_text(context, value, LONGEST, &line))
        return 0;
    if (is_canonical_first)
        ask_canonical(&of(context)->handle, command, line.at, line.length, answer);
    else
        ask(&of(context)->handle, command, line.at, line.length, answer);
    return is_answer(context, line, answer);
}

static void give_answer(sqlite3_context *context, sqlite3_value *value, const char *command, int is_canonical_first) {
    struct answer answer;
    if (ask_argument(context, value, command, is_canonical_first, &answer))
        give(context, &answer);
}

FUNCTION(canonical) {
    give_answer(context, values[0], "locales canonicalize", 0);
}

FUNCTION(maximal) {
    give_answer(context, values[0], "locales maximize", 1);
}

FUNCTION(minimal) {
    give_answer(context, values[0], "locales minimize", 1);
}

FUNCTION(key) {
    give_answer(context, values[0], "locales key", 0);
}

FUNCTION(identifier_key) {
    give_answer(context, values[0], "locales identifier-key", 0);
}

FUNCTION(canonical_of) {
    static const char *const commands[] = {"locales canonicalize", "bcp47 canonicalize", "posix canonicalize"};
    struct piece syntax;
    if (!is_text(context, values[1], LONGEST, &syntax))
        return;
    for (int i = 0; i < 3; i++)
        if (strcspn(commands[i], " ") == syntax.length && memcmp(commands[i], syntax.at, syntax.length) == 0) {
            give_answer(context, values[0], commands[i], 0);
            return;
        }
    sqlite3_result_error(context, "the syntax of a locale is locales, bcp47 or posix", -1);
}

// `parts` asks no table, so no answer changes with the data.
FUNCTION(is_locale) {
    struct piece line;
    struct answer answer = {.said = ICU_LOCALE_REFUSED};
    if (!is_text(context, values[0], SIZE_MAX, &line))
        return;
    if (line.length <= LONGEST)
        ask(&of(context)->handle, "locales parts", line.at, line.length, &answer);
    if (answer.said == ICU_LOCALE_REFUSED || is_answer(context, line, &answer))
        sqlite3_result_int(context, answer.said == ICU_LOCALE_ACCEPTED);
    forget(&answer);
}

FUNCTION(direction) {
    struct answer answer;
    if (ask_argument(context, values[0], "locales direction", 1, &answer) && answer.length != 4) // none
        give(context, &answer);
}

// A JSON array: `SELECT value FROM json_each(locale_chain('zh-TW'))`.
FUNCTION(chain) {
    struct answer answer;
    struct piece rest;
    sqlite3_str *json;
    char *text;
    if (!ask_argument(context, values[0], "locales fallback", 1, &answer))
        return;
    json = sqlite3_str_new(sqlite3_context_db_handle(context));
    rest = (struct piece){(const char *)answer.text, answer.length};
    while (rest.length > 0) {
        struct piece link = cut(&rest, ' ');
        sqlite3_str_appendf(json, "%s\"%.*s\"", sqlite3_str_length(json) == 0 ? "[" : ",", (int)link.length, link.at);
    }
    sqlite3_str_appendall(json, "]");
    forget(&answer);
    if (sqlite3_str_errcode(json) != SQLITE_OK)
        sqlite3_result_error_nomem(context);
    text = sqlite3_str_finish(json);
    if (text != NULL)
        sqlite3_result_text(context, text, -1, sqlite3_free);
}

FUNCTION(distance) {
    struct answer forms[2] = {{.taken = NULL}, {.taken = NULL}}, answer;
    struct piece both = {NULL, 0};
    char *room;
    // each alone: a space in one would make three of two
    if (ask_argument(context, values[0], "locales canonicalize", 0, &forms[0])
        && ask_argument(context, values[1], "locales canonicalize", 0, &forms[1])) {
        both.length = forms[0].length + 1 + forms[1].length;
        both.at = room = take(both.length);
        if (room == NULL)
            sqlite3_result_error_nomem(context);
    }
    if (both.at != NULL) {
        memcpy(room, forms[0].text, forms[0].length);
        room[forms[0].length] = ' ';
        memcpy(room + forms[0].length + 1, forms[1].text, forms[1].length);
        ask(&of(context)->handle, "locales distance", room, both.length, &answer);
        if (is_answer(context, both, &answer))
            sqlite3_result_int64(context, place_of(&answer));
        let_go(room);
    }
    forget(&forms[0]);
    forget(&forms[1]);
}

// Whether there are names; what there is else is told. The folder is told, since it may be the one that is missing.
static int are_names(sqlite3_context *context, int32_t said, struct piece reader, const struct answer *chain) {
    if (said == NO_FILE)
        sqlite3_result_error(context, "the names of locales in \"" NAMES "\" cannot be read: is icu-locale-data there?", -1);
    else if (said == NO_NAMES)
        refuse(context, reader, (struct piece){"there are no names in it", 24});
    else if (said == ICU_LOCALE_MEMORY)
        sqlite3_result_error_nomem(context);
    else if (said == ICU_LOCALE_REFUSED)
        is_answer(context, reader, chain);
    else if (said != ICU_LOCALE_DONE)
        sqlite3_result_error(context, "the names of locales in \"" NAMES "\" are no names", -1);
    return said == ICU_LOCALE_DONE;
}

FUNCTION(name) {
    struct connection *here = of(context);
    struct piece line, reader;
    struct names *found = NULL;
    struct answer form, answer;
    int32_t said;
    if (!is_text(context, values[0], LONGEST, &line) || !is_text(context, values[1], LONGEST, &reader))
        return;
    said = names_for(&here->handle, here->names, NAMES, reader, &answer, &found);
    if (!are_names(context, said, reader, &answer))
        return;
    ask(&here->handle, "locales canonicalize", line.at, line.length, &form);
    ask_of(&found->handle, found->command, &form, &answer);
    if (is_answer(context, line, &answer))
        give(context, &answer);
}

static void close_list(void *list) {
    icu_locale_close(list);
    sqlite3_free(list);
}

// A list of what is available, or null, which is told.
static struct icu_locale *open_list(sqlite3_context *context, struct piece available) {
    struct icu_locale *list = take(sizeof *list);
    int32_t said = ICU_LOCALE_MEMORY;
    if (list != NULL) {
        memset(list, 0, sizeof *list);
        said = icu_locale_available_in(&of(context)->handle, (const uint8_t *)"locales", 7,
                                       (const uint8_t *)available.at, available.length, list);
    }
    if (said == ICU_LOCALE_DONE)
        return list;
    sqlite3_free(list);
    if (said == ICU_LOCALE_MEMORY)
        sqlite3_result_error_nomem(context);
    else
        sqlite3_result_error(context, "what is available has what is no locale identifier", -1);
    return NULL;
}

// As what is served is spelled in the list, or its place, counted from 1.
static void give_served(sqlite3_context *context, struct piece available, long place, int is_place) {
    struct piece one = cut(&available, ' ');
    if (is_place) {
        sqlite3_result_int64(context, place + 1);
        return;
    }
    while (place-- > 0)
        one = cut(&available, ' ');
    sqlite3_result_text(context, one.at, one.length, SQLITE_TRANSIENT);
}

// What is available is one text with a space between two identifiers, as group_concat(tag, ' ') makes it.
static void served(sqlite3_context *context, sqlite3_value **values, int is_place) {
    struct icu_locale *kept = sqlite3_get_auxdata(context, 1), *list = kept;
    struct piece header, available;
    struct answer answer;
    if (!is_text(context, values[0], LONGEST, &header) || !is_text(context, values[1], LONGEST_LIST, &available))
        return;
    if (list == NULL && (list = open_list(context, available)) == NULL)
        return;
    ask(list, "locales serve", header.at, header.length, &answer);
    if (is_answer(context, header, &answer) && place_of(&answer) >= 0)
        give_served(context, available, place_of(&answer), is_place);
    forget(&answer);
    if (kept == NULL)
        sqlite3_set_auxdata(context, 1, list, close_list); // it may be closed by this call already
}

FUNCTION(serve) {
    served(context, values, 0);
}

FUNCTION(serve_place) {
    served(context, values, 1);
}

FUNCTION(data_version) {
    sqlite3_result_text(context, DATA_VERSION, -1, SQLITE_STATIC);
}

static void leave(void *given) {
    struct connection *connection = given;
    if (--connection->users > 0)
        return;
    icu_locale_close(&connection->handle);
    for (int i = 0; i < KEPT_NAMES; i++)
        icu_locale_close(&connection->names[i].handle);
    sqlite3_free(connection);
}

// A connection with its share of the tables; null where there is no memory, or the tables are none.
static struct connection *connect(int32_t *said) {
    sqlite3_mutex *mutex = sqlite3_mutex_alloc(SQLITE_MUTEX_STATIC_APP1);
    struct connection *connection = take(sizeof *connection);
    *said = ICU_LOCALE_MEMORY;
    if (connection == NULL)
        return NULL;
    memset(connection, 0, sizeof *connection);
    sqlite3_mutex_enter(mutex);
    *said = base.at == NULL ? open_base(&base) : ICU_LOCALE_DONE;
    if (*said == ICU_LOCALE_DONE)
        *said = icu_locale_share(&base, &connection->handle);
    sqlite3_mutex_leave(mutex);
    if (*said == ICU_LOCALE_DONE)
        return connection;
    sqlite3_free(connection);
    return NULL;
}

__attribute__((visibility("default"))) int sqlite3_modiculocale_init(sqlite3 *db, char **message,
                                                                     const sqlite3_api_routines *api) {
    static const struct {
        const char *name;
        int count, is_constant;
        void (*call)(sqlite3_context *, int, sqlite3_value **);
    } functions[] = {
        {"is_locale", 1, 1, is_locale},       {"locale_canonical", 1, 1, canonical},  {"locale_canonical", 2, 1, canonical_of},
        {"locale_maximal", 1, 1, maximal},    {"locale_minimal", 1, 1, minimal},      {"locale_key", 1, 1, key},
        {"locale_identifier_key", 1, 1, identifier_key},
        {"locale_direction", 1, 1, direction}, {"locale_chain", 1, 1, chain},         {"locale_distance", 2, 1, distance},
        {"locale_serve", 2, 1, serve},        {"locale_serve_place", 2, 1, serve_place}, {"locale_name", 2, 0, name},
        {"icu_locale_data_version", 0, 1, data_version},
    };
    struct connection *connection;
    int32_t said;
    int status = SQLITE_OK;
    SQLITE_EXTENSION_INIT2(api);
    connection = connect(&said);
    if (connection == NULL) {
        if (said != ICU_LOCALE_MEMORY)
            *message = sqlite3_mprintf("the tables of locales cannot be read: %d", (int)said);
        return said == ICU_LOCALE_MEMORY ? SQLITE_NOMEM : SQLITE_ERROR;
    }
    connection->users = 1;
    for (size_t i = 0; i < sizeof functions / sizeof *functions && status == SQLITE_OK; i++) {
        int flags = SQLITE_UTF8 | SQLITE_INNOCUOUS | (functions[i].is_constant ? SQLITE_DETERMINISTIC : 0);
        connection->users++; // SQLite calls `leave` where this fails, too
        status = sqlite3_create_function_v2(db, functions[i].name, functions[i].count, flags, connection, functions[i].call,
                                            NULL, NULL, leave);
    }
    leave(connection);
    return status == SQLITE_OK ? SQLITE_OK_LOAD_PERMANENTLY : status; // the tables outlive the connection
}

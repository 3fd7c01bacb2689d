// Refuses each request for memory of the extension of SQLite in its turn, of the library and of SQLite alike, and all that
// come after it: `memory EXTENSION`. What is asked then says that there is no memory, or answers right; and afterwards all
// is right again. The status is 1 where something is not so.
#include <malloc.h>
#include <sqlite3.h>
#include <stdio.h>
#include <stdlib.h>
#include <string.h>

static const char *const questions[] = {
    "SELECT locale_key('qab-aaaaa')",
    "SELECT locale_key('qaa-u-ca-buddhist-x-a')",
    "SELECT length(locale_key('qaa-x' || replace(printf('%.*c', 300, '-'), '-', '-abc')))",
    "SELECT is_locale('qaa-XAB')",
    "SELECT locale_canonical('qaa_XA.UTF-8', 'posix')",
    "SELECT locale_chain('qaa-XB')",
    "SELECT locale_distance('qaa', 'qab')",
    "SELECT locale_name('qaa-XB', 'qaa')",
    "SELECT locale_serve('qab, qaa', 'qaa qaa_XA')",
    "SELECT locale_serve_place('qab, qaa', 'qaa qaa_XA')",
};

static long left = -1;
static int is_refused;

static int refuses(void) {
    if (left != 0) {
        left -= left > 0;
        return 0;
    }
    is_refused = 1;
    return 1;
}

void *tried_malloc(size_t size);
void *tried_malloc(size_t size) {
    return refuses() ? NULL : malloc(size);
}

void *tried_realloc(void *memory, size_t size);
void *tried_realloc(void *memory, size_t size) {
    return refuses() ? NULL : realloc(memory, size);
}

static void *get(int size) {
    return tried_malloc(size);
}

static void *get_more(void *memory, int size) {
    return tried_realloc(memory, size);
}

static int size_of(void *memory) {
    return malloc_usable_size(memory);
}

static int rounded(int size) {
    return (size + 7) & ~7;
}

static int begin(void *none) {
    (void)none;
    return SQLITE_OK;
}

static void end(void *none) {
    (void)none;
}

static sqlite3 *opened(void) {
    sqlite3 *db;
    if (sqlite3_open(":memory:", &db) != SQLITE_OK) exit(2);
    sqlite3_db_config(db, SQLITE_DBCONFIG_LOOKASIDE, NULL, 0, 0);
    sqlite3_db_config(db, SQLITE_DBCONFIG_ENABLE_LOAD_EXTENSION, 1, NULL);
    return db;
}

// The answer where nothing is refused.
static char *answer_of(const char *extension, const char *question) {
    sqlite3 *db = opened();
    sqlite3_stmt *statement;
    char *answer = NULL;
    if (sqlite3_load_extension(db, extension, NULL, NULL) == SQLITE_OK
        && sqlite3_prepare_v2(db, question, -1, &statement, NULL) == SQLITE_OK && sqlite3_step(statement) == SQLITE_ROW)
        answer = strdup((const char *)sqlite3_column_text(statement, 0));
    if (answer == NULL) {
        printf("%s: %s\n", question, sqlite3_errmsg(db));
        exit(1);
    }
    sqlite3_finalize(statement);
    sqlite3_close(db);
    return answer;
}

// Asks with so much memory: 1 where the answer is right, 0 where there was too little, and else the process ends.
static int asked(sqlite3 *db, const char *question, const char *wanted, long enough) {
    sqlite3_stmt *statement = NULL;
    int status, is_right = 0;
    is_refused = 0;
    left = enough;
    status = sqlite3_prepare_v2(db, question, -1, &statement, NULL);
    if (status == SQLITE_OK)
        status = sqlite3_step(statement);
    if (status == SQLITE_ROW) {
        const char *text = (const char *)sqlite3_column_text(statement, 0);
        is_right = text != NULL && strcmp(text, wanted) == 0;
        if (!is_right && text != NULL)
            printf("%s: %s\n", question, text);
    }
    left = -1;
    if (!is_right && !(is_refused && (status == SQLITE_NOMEM || status == SQLITE_ROW))) {
        printf("%s: status %d, %s\n", question, status, sqlite3_errmsg(db));
        exit(1);
    }
    sqlite3_finalize(statement);
    return is_right;
}

// Refuses each request of a question in its turn, over a new connection.
static void try_question(const char *extension, const char *question) {
    char *wanted = answer_of(extension, question);
    sqlite3 *db = opened();
    long enough = 0;
    int is_right;
    if (sqlite3_load_extension(db, extension, NULL, NULL) != SQLITE_OK) exit(1);
    do {
        is_right = asked(db, question, wanted, enough++);
    } while ((!is_right || is_refused) && enough < 100000);
    printf("%s: %s, %ld requests\n", question, wanted, enough - 1);
    if (!asked(db, question, wanted, -1) || sqlite3_close(db) != SQLITE_OK) exit(1);
    free(wanted);
}

int main(int count, char **words) {
    static const sqlite3_mem_methods methods = {get, free, get_more, size_of, rounded, begin, end, NULL};
    long enough = 0;
    int status;
    if (count != 2 || sqlite3_config(SQLITE_CONFIG_MALLOC, &methods) != SQLITE_OK) return 2;
    do {
        sqlite3 *db = opened();
        left = enough++;
        status = sqlite3_load_extension(db, words[1], NULL, NULL);
        left = -1;
        sqlite3_close(db);
    } while (status != SQLITE_OK && enough < 100000);
    printf("loading: %ld requests\n", enough - 1);
    for (size_t i = 0; i < sizeof questions / sizeof *questions; i++) try_question(words[1], questions[i]);
    return 0;
}

// CLDR's data of the machine is opened: `data SMALL SPOILED`, a folder of tools/package-data of tools/small-cldr, and one
// with folders whose data is spoiled. Built with the linker's --wrap=realloc and --wrap=calloc, as C and as C++.
#include "icu_locale_data.h"

static int faults;
static long requests, refused_at;

#ifdef __cplusplus
extern "C" {
#endif
void *__real_realloc(void *block, size_t size);
void *__real_calloc(size_t many, size_t size);
void *__wrap_realloc(void *block, size_t size);
void *__wrap_calloc(size_t many, size_t size);

void *__wrap_realloc(void *block, size_t size) {
    return ++requests == refused_at ? NULL : __real_realloc(block, size);
}

void *__wrap_calloc(size_t many, size_t size) {
    return ++requests == refused_at ? NULL : __real_calloc(many, size);
}
#ifdef __cplusplus
}
#endif

static void want(int holds, const char *what, const char *which) {
    if (!holds) {
        printf("%s: %s\n", what, which);
        faults += 1;
    }
}

static void answers(struct icu_locale *handle, const char *command, const char *line, const char *wanted) {
    uint8_t out[128];
    size_t written = 0;
    int32_t said = icu_locale_answer(handle, (const uint8_t *)command, strlen(command), (const uint8_t *)line, strlen(line),
                                     out, sizeof out, &written);
    if ((said != ICU_LOCALE_ACCEPTED && said != ICU_LOCALE_REFUSED) || written != strlen(wanted)
        || memcmp(out, wanted, written) != 0) {
        printf("%s: %s: %d %.*s, and not %s\n", command, line, (int)said, (int)written, (const char *)out, wanted);
        faults += 1;
    }
}

static void folder(const char *top, const char *name) {
    char path[4096];
    snprintf(path, sizeof path, "%s%s", top, name);
    setenv(ICU_LOCALE_DATA_VARIABLE, path, 1);
}

// An open that is refused leaves a closed handle closed, and an open one as it was.
static void refused(const char *locales, struct icu_locale *open, int32_t number, int why) {
    struct icu_locale closed = {0};
    void *at = open->at;
    want(icu_locale_open_cldr(locales, &closed) == number && !closed.at, "a closed handle", locales);
    want(why == 0 || errno == why, "errno", locales);
    want(icu_locale_open_cldr(locales, open) == number && open->at == at, "an open handle", locales);
    answers(open, "direction", "qaa", "ltr");
}

static void no_locales(struct icu_locale *open) {
    const char *none[] = {" ", "  qaa", "qaa  qaa", "qab", "qaa qab", "qaa-Qaaa", "qaa-", "-qaa", "..", "../qaa", "/qaa", "qaa/",
                          "qaa\n", "base-and-supplement", "copyright", "locales", "verylongname", "q\xc3\xa4", "*"};
    size_t place;
    for (place = 0; place < sizeof none / sizeof *none; place++) refused(none[place], open, ICU_LOCALE_NO_LOCALE, 0);
}

// Each request of the header for memory is refused in its turn.
static void memory(void) {
    struct icu_locale handle = {0};
    int32_t said = ICU_LOCALE_MEMORY;
    for (refused_at = 1; said == ICU_LOCALE_MEMORY; refused_at++) {
        requests = 0;
        said = icu_locale_open_cldr("qaa qaa-XB", &handle);
        want((said == ICU_LOCALE_DONE) == (handle.at != NULL), "a handle", "where memory is refused");
    }
    want(said == ICU_LOCALE_DONE && refused_at > 4, "too few requests", "for memory");
    refused_at = 0;
    icu_locale_close(&handle);
}

int main(int count, char **names) {
    struct icu_locale one = {0}, other = {0};
    if (count != 3) return 2;
    folder(names[1], "");
    want(icu_locale_open_cldr(NULL, &one) == ICU_LOCALE_DONE, "an open", "without names");
    answers(&one, "maximize", "qab", "qab-Qaab-XB\tM");
    answers(&one, "fallback", "qaa-XB", "qaa-XB qaa-XA qaa und");
    answers(&one, "name light qaa", "qab", "?\tIdentifierNotFound");
    want(icu_locale_is_settled(&one) == ICU_LOCALE_SETTLED, "tables", "that are not settled");
    no_locales(&one);
    want(icu_locale_open_cldr("qaa QAA_qaab qaa qaa-XA ", &other) == ICU_LOCALE_DONE, "an open", "with names");
    answers(&other, "name light qaa", "qab", "Second\tN");
    answers(&other, "name light qaa-Qaab", "qaa", "First in B\tN");
    answers(&other, "name light qaa-XA", "qab", "Second in A\tN");
    answers(&other, "name light qaa-XB", "qab", "?\tIdentifierNotFound");
    want(icu_locale_open_cldr("", &other) == ICU_LOCALE_DONE, "an open", "of an open handle");
    answers(&other, "name light qaa", "qab", "?\tIdentifierNotFound");
    memory();
    folder(names[2], "/nothing");
    refused("qaa", &one, ICU_LOCALE_NO_DATA, ENOENT);
    folder(names[2], "/cut");
    refused("", &one, ICU_LOCALE_NO_DATA, EIO);
    refused("qaa", &one, ICU_LOCALE_NO_DATA, EIO);
    folder(names[2], "/short");
    refused("", &one, ICU_LOCALE_NO_DATA, EIO);
    folder(names[2], "/other");
    refused("", &one, ICU_LOCALE_JSON, 0);
    folder(names[2], "/blocks");
    want(icu_locale_open_cldr("qaa", &other) == ICU_LOCALE_DONE, "an open", "of what is before a cut");
    answers(&other, "name light qaa", "qab", "Second\tN");
    refused("qaa-XA", &one, ICU_LOCALE_NO_DATA, EIO);
    refused("qaa qaa-XX", &one, ICU_LOCALE_NO_DATA, EIO);
    folder(names[2], "/changed");
    refused("qaa", &one, ICU_LOCALE_NO_DATA, EIO);
    want(icu_locale_open_cldr("qaa-XA", &other) == ICU_LOCALE_DONE, "an open", "of what is read to its end");
    icu_locale_close(&one);
    icu_locale_close(&other);
    return faults != 0;
}

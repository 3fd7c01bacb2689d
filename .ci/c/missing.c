// Which table a command misses, over tables that leave out each: `missing TABLES`, a file with the sample.
#include "asked.h"

#define LANGUAGE "\"likely_language\":{\"und\":[\"en\",\"Latn\",\"US\"]}"
#define OTHERS "\"likely_script_region\":{}"
#define ALIASES "\"aliases\":{\"language_len2\":{\"iw\":\"he\"}}"
#define DIRECTION "\"direction\":{\"rtl\":[\"Hebr\"],\"ltr\":[\"Latn\"]}"
#define MATCHING "\"matching\":{\"others\":[80,50,4]}"
#define VALIDITY "\"validity\":{\"language\":{\"regular\":\"en\"}}"

// Commands that need the same, with the words that may come before them.
static const char *likely[] = {"maximize", "minimize", "minimize-script", "fallback", "negotiate", "locales maximize",
                               "bcp47 minimize", "posix fallback", "locales negotiate", NULL};
static const char *rules[] = {"canonicalize", "key", "identifier-key", "locales canonicalize", "posix key", NULL};
static const char *direction[] = {"direction", "locales direction", NULL};
static const char *served[] = {"serve", "nearest", "resolved", "locales serve", "threshold 40 or-first locales resolved", NULL};
static const char *distance[] = {"distance", "posix distance", NULL};
static const char *validity[] = {"validate", "locales validate", NULL};
static const char *exemplars[] = {"exemplars main en", "locales exemplars main en", NULL};
static const char *nothing[] = {"name light en", "locales name short-heavy zh-Hant", "parts", "locales parts",
                                "language-name light en", "script-name light en", "region-name light en", "variant-name heavy en",
                                "list regions en", NULL};

// The table that a command misses, in each room up to that of its name and some more. Nothing else is written.
static void misses(struct icu_locale *handle, const char *command, int32_t number, const char *name) {
    size_t length = strlen(name);
    uint8_t *words = copy_of(command);
    for (size_t room = 0; room < length + 3; room++) {
        size_t told_length = STAYS;
        uint8_t *out = malloc(room ? room : 1);
        if (!out) exit(2);
        memset(out, '#', room ? room : 1);
        int32_t told = icu_locale_missing(handle, words, strlen(command), out, room, &told_length);
        size_t put = told == ICU_LOCALE_ACCEPTED && room >= length ? length : 0;
        int32_t wanted = room < length ? ICU_LOCALE_ROOM : number;
        if (told != wanted || told_length != length || memcmp(out, name, put)) {
            printf("missing: %s in %zu bytes: %d %zu, and not %d %s\n", command, room, told, told_length, wanted, name);
            faults += 1;
        }
        for (size_t place = put; place < room; place++) want(out[place] == '#', "a byte of out behind the name is written");
        free(out);
    }
    free(words);
}

// The same of several commands; no name says that none is missing.
static void all_miss(struct icu_locale *handle, const char **commands, const char *name) {
    for (; *commands; commands++) misses(handle, *commands, *name ? ICU_LOCALE_ACCEPTED : ICU_LOCALE_REFUSED, name);
}

// A command is refused for a table just where one is missing.
static void agree(struct icu_locale *handle, const char **commands) {
    uint8_t out[32];
    for (; *commands; commands++) {
        int32_t told = ask(handle, *commands, "en", 4000, text, &written);
        int32_t missing = icu_locale_missing(handle, (const uint8_t *)*commands, strlen(*commands), out, sizeof out, &written);
        if (told == ICU_LOCALE_NEGOTIATE) continue;
        want((told == ICU_LOCALE_TABLE) == (missing == ICU_LOCALE_ACCEPTED), *commands);
    }
}

// Over tables of a text, with a supplement of another one: what each kind of command misses.
static void over(const char *tables, const char *supplement, const char *names[6]) {
    const char **kinds[] = {likely, rules, direction, served, distance, validity};
    struct icu_locale handle = {0}, other = {0};
    uint8_t *bytes = copy_of(tables);
    want(icu_locale_open(bytes, strlen(tables), &handle) == ICU_LOCALE_DONE, tables);
    want(supplement_of(&handle, supplement) == ICU_LOCALE_DONE, supplement);
    want(icu_locale_share(&handle, &other) == ICU_LOCALE_DONE, "a share");
    for (size_t place = 0; place < sizeof kinds / sizeof *kinds; place++) {
        all_miss(&handle, kinds[place], names[place]);
        all_miss(&other, kinds[place], names[place]);
        agree(&handle, kinds[place]);
    }
    all_miss(&handle, exemplars, "exemplars");
    all_miss(&handle, nothing, "");
    agree(&handle, exemplars);
    agree(&handle, nothing);
    icu_locale_close(&handle);
    icu_locale_close(&other);
    free(bytes);
}

// The names are those of what likely commands, rules, directions, what is served, distances and validity miss, in this order.
static void left_out(void) {
    const char *first = "likely_language", *second = "likely_script_region", *aliases = "aliases", *match = "matching";
    over("{}", "{}", (const char *[]){first, first, first, match, match, "validity"});
    over("{}", "{" MATCHING "}", (const char *[]){first, first, first, first, first, "validity"});
    over("{" LANGUAGE "}", "{" MATCHING "}", (const char *[]){second, second, second, second, second, "validity"});
    over("{" OTHERS "," ALIASES "," DIRECTION "}", "{" VALIDITY "}", (const char *[]){first, first, first, match, match, ""});
    over("{" LANGUAGE "," ALIASES "," DIRECTION "}", "{" MATCHING "," VALIDITY "}",
         (const char *[]){second, second, second, second, second, ""});
    over("{" LANGUAGE "," OTHERS "}", "{" MATCHING "}", (const char *[]){"", aliases, "direction", aliases, "", "validity"});
    over("{" LANGUAGE "," OTHERS "," DIRECTION "}", "{}", (const char *[]){"", aliases, "", match, match, "validity"});
    over("{" LANGUAGE "," OTHERS "," ALIASES "}", "{" MATCHING "," VALIDITY "}",
         (const char *[]){"", "", "direction", "", "", ""});
    over("{" LANGUAGE "," OTHERS "," ALIASES "," DIRECTION "}", "{" VALIDITY "}",
         (const char *[]){"", "", "", match, match, ""});
    over("{" LANGUAGE "," OTHERS "," ALIASES "," DIRECTION "}", "{" MATCHING "," VALIDITY "}",
         (const char *[]){"", "", "", "", "", ""});
}

// The sample has exemplar characters of one set in one locale. A handle with a list misses what one without it does.
static void over_sample(const uint8_t *json, size_t length) {
    struct icu_locale one = {0}, other = {0};
    want(icu_locale_open(json, length, &one) == ICU_LOCALE_DONE, "the sample");
    want(list_of(&one, "en zh-Hant", &other) == ICU_LOCALE_DONE, "a list");
    for (struct icu_locale *handle = &one; handle; handle = handle == &one ? &other : NULL) {
        all_miss(handle, exemplars, "");
        misses(handle, "exemplars index en", ICU_LOCALE_ACCEPTED, "exemplars");
        misses(handle, "exemplars main de", ICU_LOCALE_ACCEPTED, "exemplars");
        misses(handle, "posix exemplars main en-US", ICU_LOCALE_ACCEPTED, "exemplars");
        all_miss(handle, likely, "");
        all_miss(handle, served, "matching");
        answers(handle, "maximize", "zh-TW", ICU_LOCALE_ACCEPTED, "zh-Hant-TW\tM");
    }
    answers(&other, "serve", "en", ICU_LOCALE_TABLE, "");
    answers(&other, "negotiate", "zh-TW", ICU_LOCALE_ACCEPTED, "0\tzh-Hant");
    icu_locale_close(&one);
    icu_locale_close(&other);
}

// A closed handle is told before the words are read.
static void no_answers(void) {
    struct icu_locale handle = {0};
    const char *words[] = {"", " ", "maximise", "maximize ", " maximize", "maximize json", "settled", "name", "name light",
                           "name  light en", "name light e", "name light en-fonipa", "exemplars main", "list regions", "maxi\xff",
                           "locales", "locales locales key", "threshold serve", "or-first maximize"};
    misses(&handle, "maximize", ICU_LOCALE_CLOSED, "");
    misses(&handle, "no words", ICU_LOCALE_CLOSED, "");
    want(icu_locale_open((const uint8_t *)"{}", 2, &handle) == ICU_LOCALE_DONE, "tables that hold nothing");
    for (size_t place = 0; place < sizeof words / sizeof *words; place++) {
        misses(&handle, words[place], ICU_LOCALE_COMMAND, "");
        answers(&handle, words[place], "en", ICU_LOCALE_COMMAND, "");
    }
    icu_locale_close(&handle);
    misses(&handle, "maximize", ICU_LOCALE_CLOSED, "");
    want(!handle.at, "a closed handle is not zero");
}

int main(int count, char **names) {
    size_t length;
    if (count != 2) return 2;
    uint8_t *json = bytes_of(names[1], &length);
    no_answers();
    left_out();
    over_sample(json, length);
    free(json);
    return faults != 0;
}

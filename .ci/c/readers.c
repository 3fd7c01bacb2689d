// What serves readers, by the words before its command, and the locale that formats for one: `readers TABLES`, a file with
// the sample. By the supplement here two languages are 80 apart, two scripts 50 and two regions 4.
#include "asked.h"

static const char *matching = "{\"matching\":{\"others\":[80,50,4]}}";

// A handle with the list `de en-GB zh-Hant`.
static void near_enough(struct icu_locale *handle) {
    answers(handle, "nearest", "de-CH", ICU_LOCALE_ACCEPTED, "0\tde");
    answers(handle, "threshold 4 nearest", "de-CH", ICU_LOCALE_ACCEPTED, "none");
    answers(handle, "threshold 5 nearest", "de-CH", ICU_LOCALE_ACCEPTED, "0\tde");
    answers(handle, "threshold 0 nearest", "de", ICU_LOCALE_ACCEPTED, "none");
    answers(handle, "threshold 65535 nearest", "ar", ICU_LOCALE_ACCEPTED, "0\tde");
    answers(handle, "nearest", "en-AU de", ICU_LOCALE_ACCEPTED, "1\ten-GB");
    answers(handle, "demotion 4 nearest", "en-AU de", ICU_LOCALE_ACCEPTED, "1\ten-GB");
    answers(handle, "demotion 3 nearest", "en-AU de", ICU_LOCALE_ACCEPTED, "0\tde");
    answers(handle, "demotion 0 serve", "en-AU, de;q=0.5", ICU_LOCALE_ACCEPTED, "0\tde");
    answers(handle, "threshold 1 demotion 65535 serve", "en-AU, de;q=0.5", ICU_LOCALE_ACCEPTED, "0\tde");
    answers(handle, "serve", "fr", ICU_LOCALE_ACCEPTED, "none");
    answers(handle, "or-first serve", "fr", ICU_LOCALE_ACCEPTED, "0\tde");
    answers(handle, "or-first serve", "zh-TW", ICU_LOCALE_ACCEPTED, "2\tzh-Hant");
    answers(handle, "or-first serve", "*;q=0", ICU_LOCALE_ACCEPTED, "0\tde");
    answers(handle, "or-first nearest", "", ICU_LOCALE_ACCEPTED, "0\tde");
    answers(handle, "threshold 0 or-first locales nearest", "en-GB-u-ca-roc", ICU_LOCALE_ACCEPTED, "0\tde");
    answers(handle, "or-first nearest", "de en-", ICU_LOCALE_REFUSED, "?\tInvalidSubtag");
}

static void resolved(struct icu_locale *handle) {
    answers(handle, "resolved", "de-CH", ICU_LOCALE_ACCEPTED, "0\tde-CH");
    answers(handle, "locales resolved", "fr-x-a en-AU-u-ca-buddhist", ICU_LOCALE_ACCEPTED, "1\ten-AU-u-ca-buddhist");
    answers(handle, "posix resolved", "de_AT.UTF-8", ICU_LOCALE_ACCEPTED, "0\tde-AT");
    answers(handle, "resolved", "zh-TW", ICU_LOCALE_ACCEPTED, "2\tzh-Hant-TW");
    answers(handle, "resolved", "en", ICU_LOCALE_ACCEPTED, "1\ten-GB");
    answers(handle, "resolved", "DE_1996", ICU_LOCALE_ACCEPTED, "0\tde-1996");
    answers(handle, "resolved", "fr", ICU_LOCALE_ACCEPTED, "none");
    answers(handle, "resolved", "", ICU_LOCALE_ACCEPTED, "none");
    answers(handle, "resolved", "de-u-nu-latn", ICU_LOCALE_REFUSED, "?\tInvalidSubtag");
    answers(handle, "locales resolved", "de ", ICU_LOCALE_REFUSED, "?\tInvalidLanguage");
    answers(handle, "threshold 4 or-first resolved", "en-AU", ICU_LOCALE_ACCEPTED, "0\tde");
    answers(handle, "demotion 0 locales resolved", "en-AU de-x-a", ICU_LOCALE_ACCEPTED, "0\tde-x-a");
}

// Words that no command has: a number that is none, another order, one twice, and before a command that serves no reader.
static void wrong_words(struct icu_locale *handle) {
    const char *words[] = {"threshold", "threshold 5", "threshold serve", "threshold x serve", "threshold -1 serve",
                           "threshold 65536 serve", "threshold  5 serve", "threshold 5  serve", "demotion 65536 nearest",
                           "demotion 5 threshold 5 serve", "or-first favor-script serve", "or-first demotion 5 serve",
                           "threshold 5 threshold 5 serve", "or-first or-first resolved", "locales or-first serve",
                           "favor-script maximize", "or-first negotiate", "demotion 0 distance", "threshold 5 locales key",
                           "or-first settled", "or-first", "favor-script locales", "or_first serve", "resolved en"};
    for (size_t place = 0; place < sizeof words / sizeof *words; place++)
        answers(handle, words[place], "en", ICU_LOCALE_COMMAND, "");
}

int main(int count, char **names) {
    size_t length;
    struct icu_locale from = {0}, one = {0};
    if (count != 2) return 2;
    uint8_t *json = bytes_of(names[1], &length);
    answers(&from, "or-first resolved", "de", ICU_LOCALE_CLOSED, "");
    want(icu_locale_open(json, length, &from) == ICU_LOCALE_DONE, "the sample");
    answers(&from, "resolved", "de", ICU_LOCALE_NEGOTIATE, "");
    answers(&from, "threshold 9 serve", "de", ICU_LOCALE_NEGOTIATE, "");
    want(list_of(&from, "de", &one) == ICU_LOCALE_DONE, "a list");
    answers(&one, "resolved", "de", ICU_LOCALE_TABLE, "");
    answers(&one, "or-first serve", "de", ICU_LOCALE_TABLE, "");
    icu_locale_close(&one);
    want(supplement_of(&from, matching) == ICU_LOCALE_DONE, "match rules");
    want(list_of(&from, "de", &one) == ICU_LOCALE_DONE, "a list over them");
    answers(&one, "nearest", "en", ICU_LOCALE_ACCEPTED, "none");
    answers(&one, "favor-script nearest", "en", ICU_LOCALE_ACCEPTED, "0\tde");
    answers(&one, "threshold 24 favor-script nearest", "en", ICU_LOCALE_ACCEPTED, "none");
    answers(&one, "threshold 25 favor-script nearest", "en", ICU_LOCALE_ACCEPTED, "0\tde");
    answers(&one, "favor-script nearest", "ar", ICU_LOCALE_ACCEPTED, "none");
    want(list_of(&from, "de en-GB zh-Hant", &one) == ICU_LOCALE_DONE, "a longer list");
    for (int times = 0; times < 2; times++) {
        near_enough(&one);
        resolved(&one);
        wrong_words(&one);
    }
    want(list_of(&from, "", &one) == ICU_LOCALE_DONE, "an empty list");
    answers(&one, "or-first serve", "de", ICU_LOCALE_ACCEPTED, "none");
    answers(&one, "or-first resolved", "de", ICU_LOCALE_ACCEPTED, "none");
    want(listed_in(&from, "locales", "de-u-co-phonebk en", &one) == ICU_LOCALE_DONE, "a list in a syntax");
    answers(&one, "locales resolved", "de-CH-u-nu-latn", ICU_LOCALE_ACCEPTED, "0\tde-CH-u-nu-latn");
    answers(&one, "or-first serve", "fr", ICU_LOCALE_ACCEPTED, "0\tde-u-co-phonebk");
    icu_locale_close(&from);
    icu_locale_close(&one);
    free(json);
    return faults != 0;
}

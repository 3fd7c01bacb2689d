// Calls in each order, right and wrong, and the number and the text of each: `calls TABLES`, a file with the sample.
#include "asked.h"

// Before an open, and behind a close.
static void closed(struct icu_locale *handle) {
    struct icu_locale other = {0};
    answers(handle, "maximize", "en", ICU_LOCALE_CLOSED, "");
    answers(handle, "no words", "en", ICU_LOCALE_CLOSED, "");
    want(icu_locale_is_settled(handle) == ICU_LOCALE_CLOSED, "is_settled over a closed handle");
    want(icu_locale_share(handle, &other) == ICU_LOCALE_CLOSED, "share of a closed handle");
    data_named(handle, 9, ICU_LOCALE_CLOSED, "");
    want(supplement_of(handle, "{}") == ICU_LOCALE_CLOSED, "a supplement of a closed handle");
    want(supplement_of(handle, "{") == ICU_LOCALE_CLOSED, "no supplement of a closed handle");
    want(list_of(handle, "en", &other) == ICU_LOCALE_CLOSED, "a list over a closed handle");
    want(list_of(handle, "en-", &other) == ICU_LOCALE_CLOSED, "a faulty list over a closed handle");
    refuses(handle, "en", ICU_LOCALE_CLOSED);
    refuses(handle, "en-", ICU_LOCALE_CLOSED);
    answers(handle, "negotiate", "en", ICU_LOCALE_CLOSED, "");
    want(!handle->at && !other.at, "a closed handle is not zero");
    icu_locale_close(handle);
    icu_locale_close(handle);
    want(!handle->at, "a handle that is closed again is not zero");
}

static int32_t open_text(const char *json, struct icu_locale *handle) {
    uint8_t *bytes = copy_of(json);
    int32_t number = icu_locale_open(bytes, strlen(json), handle);
    free(bytes);
    return number;
}

// A text of objects, one in another, so many deep: as deep as JSON is read, and deeper.
static int32_t open_nested(int depth, struct icu_locale *handle) {
    static char json[8 * 1024];
    char *at = json;
    for (int level = 0; level < depth; level++) at += sprintf(at, "{\"a\":");
    *at++ = '1';
    memset(at, '}', (size_t)depth);
    at[depth] = '\0';
    return open_text(json, handle);
}

static void refused_opens(struct icu_locale *handle) {
    void *at = handle->at;
    want(open_nested(127, handle) == ICU_LOCALE_SHAPE, "objects as deep as JSON is read");
    want(open_nested(1000, handle) == ICU_LOCALE_JSON, "objects that are deeper");
    want(open_text("", handle) == ICU_LOCALE_JSON, "no text");
    want(open_text("{", handle) == ICU_LOCALE_JSON, "half of a text");
    want(open_text("{\"colour\":1}", handle) == ICU_LOCALE_SHAPE, "a member that no table has");
    want(open_text("[]", handle) == ICU_LOCALE_SHAPE, "a list");
    want(handle->at == at, "a handle moves where an open is refused");
}

static void commands(struct icu_locale *handle) {
    answers(handle, "maximize", "zh-TW", ICU_LOCALE_ACCEPTED, "zh-Hant-TW\tM");
    answers(handle, "maximize", "EN_us", ICU_LOCALE_ACCEPTED, "en-Latn-US\tM");
    answers(handle, "maximize", "", ICU_LOCALE_REFUSED, "?\tInvalidLanguage");
    answers(handle, "maximize", "en\n", ICU_LOCALE_REFUSED, "?\tInvalidLanguage");
    answers(handle, "maximize", "en-", ICU_LOCALE_REFUSED, "?\tInvalidSubtag");
    answers(handle, "maximize", "de-1996-1901", ICU_LOCALE_ACCEPTED, "de-Latn-DE-1901-1996\tM");
    answers(handle, "minimize", "yue-Hans", ICU_LOCALE_ACCEPTED, "yue-CN\tM");
    answers(handle, "minimize-script", "zh-TW", ICU_LOCALE_ACCEPTED, "zh-Hant\tM");
    for (int times = 0; times < 3; times++) {
        answers(handle, "canonicalize", "sgn-DD", ICU_LOCALE_ACCEPTED, "gsg\tM");
        answers(handle, "canonicalize", "sh\tabcdefg", ICU_LOCALE_ACCEPTED, "sr-Latn\txyz\tM");
        answers(handle, "canonicalize", "ja", ICU_LOCALE_ACCEPTED, "ja\tU");
        answers(handle, "canonicalize", "ja\tab", ICU_LOCALE_REFUSED, "?\tInvalidSubtag");
    }
    answers(handle, "fallback", "zh-TW", ICU_LOCALE_ACCEPTED, "zh-TW zh-Hant-TW zh-Hant und");
    answers(handle, "fallback", "de-1996", ICU_LOCALE_ACCEPTED, "de-1996 de und");
    answers(handle, "fallback", "", ICU_LOCALE_REFUSED, "?\tInvalidLanguage");
    answers(handle, "locales fallback", "en-US-u-hc-h12", ICU_LOCALE_ACCEPTED, "en-US en und");
    answers(handle, "locales maximize", "EN-u-hc-h12-ca-buddhist-x-A", ICU_LOCALE_ACCEPTED, "en-Latn-US-u-ca-buddhist-hc-h12-x-a\tM");
    answers(handle, "locales canonicalize", "sh-t-sh-u-rg-abcdefg", ICU_LOCALE_ACCEPTED, "sr-Latn-t-sr-latn-u-rg-xyz\tM");
    answers(handle, "locales canonicalize", "sh\tabcdefg", ICU_LOCALE_REFUSED, "?\tInvalidLanguage");
    answers(handle, "locales maximize", "i-klingon", ICU_LOCALE_REFUSED, "?\tInvalidLanguage");
    answers(handle, "bcp47 canonicalize", "i-klingon", ICU_LOCALE_ACCEPTED, "tlh\tU");
    answers(handle, "bcp47 canonicalize", "x-mine", ICU_LOCALE_ACCEPTED, "und-x-mine\tU");
    answers(handle, "posix canonicalize", "sr_RS.UTF-8@latin", ICU_LOCALE_ACCEPTED, "sr-Latn-RS\tU");
    answers(handle, "posix name light en", "it-Latn-150-x-a", ICU_LOCALE_ACCEPTED, "Italian (Latin, Europe)\tN");
    answers(handle, "direction", "ar", ICU_LOCALE_ACCEPTED, "rtl");
    answers(handle, "direction", "und", ICU_LOCALE_ACCEPTED, "none");
    answers(handle, "name light en", "it-Qabc-150", ICU_LOCALE_ACCEPTED, "Italian (Qabc, Europe)\tR");
    answers(handle, "name light zh", "it", ICU_LOCALE_REFUSED, "?\tIdentifierNotFound");
    answers(handle, "name light en", "sh", ICU_LOCALE_ACCEPTED, "sh\tR");
    answers(handle, "locales name light en", "sh", ICU_LOCALE_ACCEPTED, "sr (Latin)\tR");
    answers(handle, "region-name light en", "150", ICU_LOCALE_ACCEPTED, "Europe\tN");
    answers(handle, "list regions en", "", ICU_LOCALE_ACCEPTED, "150 US");
    answers(handle, "list regions en", "U", ICU_LOCALE_ACCEPTED, "US");
    answers(handle, "exemplars main en", "ng", ICU_LOCALE_ACCEPTED, "yes");
    want(icu_locale_is_settled(handle) == ICU_LOCALE_SETTLED, "the sample is not settled");
}

// A supplement of tables that one handle has, and of tables that two have.
static void supplements(const uint8_t *json, size_t length) {
    struct icu_locale one = {0}, other = {0};
    const char *validity = "{\"cldr\":\"41\",\"validity\":{\"language\":{\"regular\":\"en\"}}}";
    const char *parents = "{\"parents\":{\"en-AU\":\"en-001\",\"aa\":\"qbb\",\"qbb\":\"aa\"}}";
    want(icu_locale_open(json, length, &one) == ICU_LOCALE_DONE, "tables to be supplemented");
    answers(&one, "fallback", "en-AU", ICU_LOCALE_ACCEPTED, "en-AU en und");
    data_named(&one, 0, ICU_LOCALE_REFUSED, "");
    answers(&one, "validate", "en", ICU_LOCALE_TABLE, "");
    want(supplement_of(&one, validity) == ICU_LOCALE_DONE, "a supplement with a table of validity");
    answers(&one, "locales validate", "en-x-a", ICU_LOCALE_ACCEPTED, "valid");
    answers(&one, "validate", "de", ICU_LOCALE_ACCEPTED, "language de unlisted 0 2");
    data_named(&one, 2, ICU_LOCALE_ACCEPTED, "41");
    data_named(&one, 1, ICU_LOCALE_ROOM, "41");
    want(supplement_of(&one, parents) == ICU_LOCALE_DONE, "a supplement");
    answers(&one, "fallback", "en-AU", ICU_LOCALE_ACCEPTED, "en-AU en-001 en und");
    answers(&one, "fallback", "aa-DJ", ICU_LOCALE_REFUSED, "?\tCircle");
    want(supplement_of(&one, "") == ICU_LOCALE_JSON, "no text of a supplement");
    want(supplement_of(&one, "{\"colour\":1}") == ICU_LOCALE_SHAPE, "a member that no supplement has");
    answers(&one, "fallback", "en-AU", ICU_LOCALE_ACCEPTED, "en-AU en-001 en und");
    commands(&one);
    want(icu_locale_share(&one, &other) == ICU_LOCALE_DONE, "a share of supplemented tables");
    answers(&other, "fallback", "en-AU", ICU_LOCALE_ACCEPTED, "en-AU en-001 en und");
    want(supplement_of(&one, "{}") == ICU_LOCALE_SHARED, "a supplement of tables that are shared");
    want(supplement_of(&other, "{}") == ICU_LOCALE_SHARED, "a supplement of a share");
    want(supplement_of(&other, "{") == ICU_LOCALE_JSON, "no supplement of a share");
    answers(&one, "fallback", "en-AU", ICU_LOCALE_ACCEPTED, "en-AU en-001 en und");
    icu_locale_close(&one);
    want(supplement_of(&other, "{}") == ICU_LOCALE_DONE, "a supplement where the other handle is closed");
    answers(&other, "fallback", "en-AU", ICU_LOCALE_ACCEPTED, "en-AU en und");
    icu_locale_close(&other);
}

static void wrong_words(struct icu_locale *handle) {
    const char *words[] = {"", " ", "maximise", "Maximize", "maximize ", " maximize", "maximize json", "settled", "name",
                           "name light", "name light ", "name  light en", "name light  en", "name light en x", "name lighter en",
                           "name light en-fonipa", "name light e", "light en", "maxi\xff", "name \xff en", "name light \xff",
                           "locales", "locales ", " locales maximize", "locales  maximize", "locales locales maximize", "bcp47 settled",
                           "posix json", "unicode maximize", "maximize locales", "locales name light"};
    for (size_t place = 0; place < sizeof words / sizeof *words; place++) {
        answers(handle, words[place], "en", ICU_LOCALE_COMMAND, "");
    }
}

static void rooms(struct icu_locale *handle, const char *command) {
    const char *lines[] = {"zh-TW", "e", "de-1996-1901-fonipa"};
    for (size_t place = 0; place < sizeof lines / sizeof *lines; place++) {
        int32_t whole = ask(handle, command, lines[place], 4000, text, &written);
        size_t length = written;
        for (size_t room = 0; room < length + 3; room++) {
            int32_t number = ask(handle, command, lines[place], room, text, &written);
            want(number == (room < length ? ICU_LOCALE_ROOM : whole), "another number than the room asks for");
            want(written == length, "another length is told than that of the answer");
        }
    }
}

// A handle that holds no list, whatever the requests are.
static void without_list(struct icu_locale *handle) {
    const char *requests[] = {"en", "", "en-", " "};
    for (size_t place = 0; place < sizeof requests / sizeof *requests; place++) {
        refuses(handle, requests[place], ICU_LOCALE_NEGOTIATE);
        answers(handle, "negotiate", requests[place], ICU_LOCALE_NEGOTIATE, "");
    }
}

// A handle with the list `en-US zh-Hant yue-CN`.
static void negotiations(struct icu_locale *handle) {
    const char *faulty[] = {"e", "en-", " ", "en ", " en", "en  de", "zh-TW e", "en\n", "en\tde", "zh-TW \xff"};
    meets(handle, "en", ICU_LOCALE_MET, 0, 0);
    meets(handle, "fr zh_tw", ICU_LOCALE_MET, 1, 1);
    meets(handle, "fr de-AT yue-Hans en", ICU_LOCALE_MET, 2, 2);
    meets(handle, "EN zh-TW", ICU_LOCALE_MET, 0, 0);
    refuses(handle, "fr", ICU_LOCALE_NOT_MET);
    refuses(handle, "en-fonipa zh-Hans", ICU_LOCALE_NOT_MET);
    refuses(handle, "", ICU_LOCALE_NOT_MET);
    for (size_t place = 0; place < sizeof faulty / sizeof *faulty; place++) refuses(handle, faulty[place], ICU_LOCALE_LIST);
    answers(handle, "negotiate", "fr zh_tw", ICU_LOCALE_ACCEPTED, "1\tzh-Hant");
    answers(handle, "negotiate", "und-US", ICU_LOCALE_ACCEPTED, "0\ten-US");
    answers(handle, "negotiate", "fr", ICU_LOCALE_ACCEPTED, "none");
    answers(handle, "negotiate", "", ICU_LOCALE_ACCEPTED, "none");
    answers(handle, "negotiate", "zh-TW en-", ICU_LOCALE_REFUSED, "?\tInvalidSubtag");
    answers(handle, "negotiate", "zh-TW ", ICU_LOCALE_REFUSED, "?\tInvalidLanguage");
}

// Lists in a syntax: what is available is written whole, whatever the syntax of the words, and decided by its identifiers.
static void in_syntax(struct icu_locale *from) {
    struct icu_locale one = {0}, two = {0};
    size_t request = 77, available = 77;
    const char *list = "en-u-hc-h12 EN_u_hc_h23 de_u_co_phonebk", *none[] = {"unicode", "locales ", "LOCALES", "maximize", "\xff"};
    want(listed_in(from, "locales", list, &one) == ICU_LOCALE_DONE, "a list in a syntax");
    answers(&one, "negotiate", "en", ICU_LOCALE_ACCEPTED, "0\ten-u-hc-h12");
    answers(&one, "locales negotiate", "fr-x-a de-AT-x-a de-x-a", ICU_LOCALE_ACCEPTED, "2\tde-u-co-phonebk");
    answers(&one, "negotiate", "en-x-a", ICU_LOCALE_REFUSED, "?\tInvalidSubtag");
    want(met_in(&one, "posix", "fr de_DE.UTF-8", &request, &available) == ICU_LOCALE_MET && request == 1 && available == 2,
         "requests in a syntax");
    want(met_in(&one, "", "en", &request, &available) == ICU_LOCALE_MET && request == 0 && available == 0, "requests in none");
    want(met_in(&one, "", "en-x-a", &request, &available) == ICU_LOCALE_LIST, "a faulty request in no syntax");
    want(met_in(&one, "locales", "fr-x-a", &request, &available) == ICU_LOCALE_NOT_MET, "a request that is not met");
    for (size_t place = 0; place < sizeof none / sizeof *none; place++) {
        void *at = one.at;
        want(listed_in(from, none[place], list, &one) == ICU_LOCALE_COMMAND && one.at == at, "a list in what is no syntax");
        want(met_in(&one, none[place], "en", &request, &available) == ICU_LOCALE_COMMAND, "requests in what is no syntax");
    }
    want(request == 0 && available == 0, "places are written where there is no answer");
    want(listed_in(from, "locales", "en de-u", &one) == ICU_LOCALE_LIST, "a faulty list in a syntax");
    answers(&one, "negotiate", "en", ICU_LOCALE_ACCEPTED, "0\ten-u-hc-h12");
    want(listed_in(from, "", "en-u-hc-h12", &one) == ICU_LOCALE_LIST, "an extension in no syntax");
    want(listed_in(from, "bcp47", "x-mine zh-cmn-Hans", &one) == ICU_LOCALE_DONE, "a list of tags");
    answers(&one, "bcp47 negotiate", "cmn-Hans", ICU_LOCALE_ACCEPTED, "0\tcmn-Hans");
    want(listed_in(from, "", "EN", &one) == ICU_LOCALE_DONE, "a list in no syntax");
    answers(&one, "locales negotiate", "en-u-hc-h12", ICU_LOCALE_ACCEPTED, "0\ten");
    icu_locale_close(&one);
    want(listed_in(&one, "locales", list, &two) == ICU_LOCALE_CLOSED && !two.at, "a list in a syntax over a closed handle");
    want(met_in(&one, "locales", "en", &request, &available) == ICU_LOCALE_CLOSED, "requests in a syntax of a closed handle");
    want(met_in(from, "locales", "en", &request, &available) == ICU_LOCALE_NEGOTIATE, "requests in a syntax without a list");
}

static void refused_lists(struct icu_locale *from, struct icu_locale *negotiator) {
    const char *faulty[] = {"e", "en-", " ", "en ", " en", "en  de", "zh-TW e", "en\n", "en\tde", "zh-TW \xff"};
    void *at = negotiator->at, *from_at = from->at;
    for (size_t place = 0; place < sizeof faulty / sizeof *faulty; place++)
        want(list_of(from, faulty[place], negotiator) == ICU_LOCALE_LIST, "a faulty list");
    want(negotiator->at == at && from->at == from_at, "a handle moves where a list is refused");
}

// Lists over the tables of `from`: into a closed handle, into an open one, and one behind another.
static void lists(struct icu_locale *from) {
    struct icu_locale one = {0}, other = {0};
    refused_lists(from, &one);
    want(list_of(from, "en-US zh-Hant yue-CN", &one) == ICU_LOCALE_DONE, "a list into a closed handle");
    negotiations(&one);
    commands(&one);
    wrong_words(&one);
    rooms(&one, "maximize");
    rooms(&one, "negotiate");
    refused_lists(from, &one);
    negotiations(&one);
    without_list(from);
    want(icu_locale_share(&one, &other) == ICU_LOCALE_DONE, "a share of a negotiator");
    without_list(&other);
    commands(&other);
    want(list_of(&one, "de en en-Latn", &other) == ICU_LOCALE_DONE, "a list of a negotiator's tables into an open handle");
    meets(&other, "zh-Hant en-US", ICU_LOCALE_MET, 1, 1);
    negotiations(&one);
    want(list_of(from, "", &other) == ICU_LOCALE_DONE, "an empty list, where there was another");
    refuses(&other, "en", ICU_LOCALE_NOT_MET);
    refuses(&other, "", ICU_LOCALE_NOT_MET);
    refuses(&other, "en-", ICU_LOCALE_LIST);
    answers(&other, "negotiate", "en", ICU_LOCALE_ACCEPTED, "none");
    refused_opens(&one);
    negotiations(&one);
    icu_locale_close(&other);
    closed(&other);
    want(icu_locale_share(from, &one) == ICU_LOCALE_DONE, "a share into a negotiator");
    without_list(&one);
    icu_locale_close(&one);
}

// Five hundred identifiers, with a variant each: every one is found at its place.
static void many(struct icu_locale *from) {
    enum { COUNT = 500, SIZE = 8, ROOM = 16 };
    struct icu_locale negotiator = {0};
    char list[COUNT * SIZE + ROOM], request[ROOM];
    for (int place = 0; place < COUNT; place++) snprintf(list + place * SIZE, ROOM, "en-%d ", 1000 + place);
    list[COUNT * SIZE - 1] = 0;
    want(list_of(from, list, &negotiator) == ICU_LOCALE_DONE, "a long list");
    for (int place = 0; place < COUNT; place++) {
        snprintf(request, sizeof request, "en-%d", 1000 + place);
        meets(&negotiator, request, ICU_LOCALE_MET, 0, (size_t)place);
    }
    meets(&negotiator, list, ICU_LOCALE_MET, 0, 0);
    refuses(&negotiator, "en", ICU_LOCALE_NOT_MET);
    icu_locale_close(&negotiator);
}

// A negotiator has its tables also where the handle that they came from is closed, and an open takes its list away.
static void alone(const uint8_t *json, size_t length) {
    struct icu_locale from = {0}, negotiator = {0};
    want(icu_locale_open(json, length, &from) == ICU_LOCALE_DONE, "the sample");
    want(list_of(&from, "en-US zh-Hant yue-CN", &negotiator) == ICU_LOCALE_DONE, "a list");
    icu_locale_close(&from);
    negotiations(&negotiator);
    want(list_of(&from, "en", &negotiator) == ICU_LOCALE_CLOSED, "a list of a closed handle into an open one");
    negotiations(&negotiator);
    want(icu_locale_open(json, length, &negotiator) == ICU_LOCALE_DONE, "an open of a negotiator");
    without_list(&negotiator);
    commands(&negotiator);
    icu_locale_close(&negotiator);
    closed(&negotiator);
}

static void left_out(struct icu_locale *handle, struct icu_locale *other) {
    want(open_text("{}", handle) == ICU_LOCALE_DONE, "tables that hold nothing");
    want(list_of(handle, "en", other) == ICU_LOCALE_TABLE, "a list without likely tables");
    want(list_of(handle, "", other) == ICU_LOCALE_TABLE, "an empty list without likely tables");
    want(list_of(handle, "en-", other) == ICU_LOCALE_TABLE, "a faulty list without likely tables");
    answers(handle, "maximize", "en", ICU_LOCALE_TABLE, "");
    answers(handle, "canonicalize", "en", ICU_LOCALE_TABLE, "");
    answers(handle, "direction", "en", ICU_LOCALE_TABLE, "");
    answers(handle, "negotiate", "en", ICU_LOCALE_NEGOTIATE, "");
    answers(handle, "name light en", "it", ICU_LOCALE_REFUSED, "?\tIdentifierNotFound");
    want(icu_locale_is_settled(handle) == ICU_LOCALE_TABLE, "is_settled without likely tables");
    want(open_text("{\"likely_language\":{\"und\":[\"en\",\"Latn\",\"US\"]},\"likely_script_region\":{}}", handle)
             == ICU_LOCALE_DONE, "likely tables alone");
    answers(handle, "maximize", "und-US", ICU_LOCALE_ACCEPTED, "en-Latn-US\tM");
    answers(handle, "canonicalize", "en", ICU_LOCALE_TABLE, "");
    answers(handle, "canonicalize", "en-1996-fonipa", ICU_LOCALE_TABLE, "");
    answers(handle, "direction", "en", ICU_LOCALE_TABLE, "");
}

// A list over tables that are not settled: it is served and not negotiated over, whatever the requests are.
static void not_negotiated(struct icu_locale *handle) {
    const char *requests[] = {"en", "", "en-", " "};
    for (size_t place = 0; place < sizeof requests / sizeof *requests; place++) {
        refuses(handle, requests[place], ICU_LOCALE_UNSETTLED);
        answers(handle, "negotiate", requests[place], ICU_LOCALE_UNSETTLED, "");
        answers(handle, "locales negotiate", requests[place], ICU_LOCALE_UNSETTLED, "");
    }
}

static void unsettled(void) {
    struct icu_locale from = {0}, one = {0};
    const char *tables = "{\"likely_language\":{\"und\":[\"en\",\"Latn\",\"US\"],\"language\":{\"xx\":[\"Zzzz\",\"DE\"]}},"
                         "\"likely_script_region\":{},\"aliases\":{\"language_len2\":{\"iw\":\"he\"}}}";
    size_t request = 77, available = 77;
    want(open_text(tables, &from) == ICU_LOCALE_DONE, "tables that are not settled");
    want(icu_locale_is_settled(&from) == ICU_LOCALE_NOT_SETTLED, "they are told as settled");
    without_list(&from);
    refused_lists(&from, &one);
    want(list_of(&from, "en he", &one) == ICU_LOCALE_DONE, "a list over tables that are not settled");
    answers(&one, "serve", "iw", ICU_LOCALE_TABLE, "");
    icu_locale_close(&one);
    want(supplement_of(&from, "{\"matching\":{\"others\":[80,50,4]}}") == ICU_LOCALE_DONE, "match rules");
    want(list_of(&from, "en he", &one) == ICU_LOCALE_DONE, "a list over them, with match rules");
    for (int times = 0; times < 2; times++) {
        answers(&one, "serve", "fr, iw;q=0.5", ICU_LOCALE_ACCEPTED, "1\the");
        answers(&one, "nearest", "fr iw", ICU_LOCALE_ACCEPTED, "1\the");
        answers(&one, "serve", "fr", ICU_LOCALE_ACCEPTED, "none");
        not_negotiated(&one);
    }
    rooms(&one, "maximize");
    refused_lists(&from, &one);
    want(list_of(&from, "", &one) == ICU_LOCALE_DONE, "an empty list over tables that are not settled");
    answers(&one, "serve", "en", ICU_LOCALE_ACCEPTED, "none");
    not_negotiated(&one);
    want(listed_in(&from, "locales", "en-u-hc-h12", &one) == ICU_LOCALE_DONE, "a list in a syntax over such tables");
    answers(&one, "serve", "en", ICU_LOCALE_ACCEPTED, "0\ten-u-hc-h12");
    want(met_in(&one, "locales", "en", &request, &available) == ICU_LOCALE_UNSETTLED, "requests in a syntax over such tables");
    want(met_in(&one, "unicode", "en", &request, &available) == ICU_LOCALE_COMMAND, "requests in what is no syntax over such tables");
    want(request == 77 && available == 77, "places are written where there is no answer");
    icu_locale_close(&from);
    icu_locale_close(&one);
}

static void list_faults(void) {
    fault("", "", ICU_LOCALE_DONE, 0);
    fault("", "en zh-Hant de-u-co-phonebk fr-", ICU_LOCALE_LIST, 2);
    fault("", " en", ICU_LOCALE_LIST, 0);
    fault("locales", "en zh-Hant de-u-co-phonebk", ICU_LOCALE_DONE, 0);
    fault("locales", "en en-Latm1-US x", ICU_LOCALE_LIST, 1);
    fault("posix", "en_US.UTF-8 C", ICU_LOCALE_DONE, 0);
    fault("tags", "en-", ICU_LOCALE_COMMAND, 0);
}

// By the grammar of UTS #35 Part 1, section 3.2, by hand.
static void places(void) {
    placed("en", ICU_LOCALE_ACCEPTED, 0, 0);
    placed("de-DE-u-co-phonebk-x-a", ICU_LOCALE_ACCEPTED, 0, 0);
    placed("", ICU_LOCALE_REFUSED, 0, 0);
    placed("1en", ICU_LOCALE_REFUSED, 0, 3);
    placed("en-Latm1-US", ICU_LOCALE_REFUSED, 9, 11); // `latm1` may be a variant
    placed("en-US-Latn", ICU_LOCALE_REFUSED, 6, 10);
    placed("en_Latn_US_", ICU_LOCALE_REFUSED, 11, 11);
    placed("en-u", ICU_LOCALE_REFUSED, 4, 4);
    placed("en-u-ca-buddhist-u-nu-thai", ICU_LOCALE_REFUSED, 17, 18);
    placed("de-1996-1996", ICU_LOCALE_REFUSED, 8, 12);
    placed("en-t-de-m0", ICU_LOCALE_REFUSED, 10, 10);
    placed("en-x", ICU_LOCALE_REFUSED, 4, 4);
    placed("en-a-b", ICU_LOCALE_REFUSED, 5, 6);
}

// Each number has the text that the header's words for it have, and 64 bytes are enough.
static void refusal_texts(void) {
    const char *words[] = {"the handle is closed", "there is too little room", "memory was asked for and refused",
                           "the text is no JSON", "the shape is not that of tables, a supplement or lent names",
                           "no command or syntax has these words", "the tables leave out one that is needed",
                           "the handle holds no list of what is available", "the text lists something that is no identifier",
                           "the likely tables are not settled", "another handle has the tables too"};
    const int32_t none[] = {ICU_LOCALE_DONE, ICU_LOCALE_REFUSED, ICU_LOCALE_SHARED + 1, -1, -2, 1000, INT32_MAX, INT32_MIN};
    want(sizeof words / sizeof *words == ICU_LOCALE_SHARED - ICU_LOCALE_CLOSED + 1, "a number without words");
    for (int32_t number = ICU_LOCALE_CLOSED; number <= ICU_LOCALE_SHARED; number++) {
        const char *wanted = words[number - ICU_LOCALE_CLOSED];
        texts(number, 64, ICU_LOCALE_ACCEPTED, wanted);
        texts(number, strlen(wanted), ICU_LOCALE_ACCEPTED, wanted);
        texts(number, strlen(wanted) - 1, ICU_LOCALE_ROOM, wanted);
        texts(number, 0, ICU_LOCALE_ROOM, wanted);
    }
    for (size_t place = 0; place < sizeof none / sizeof *none; place++) {
        texts(none[place], 64, ICU_LOCALE_REFUSED, "");
        texts(none[place], 0, ICU_LOCALE_REFUSED, "");
    }
}

int main(int count, char **names) {
    size_t length;
    struct icu_locale one = {0}, other = {0};
    if (count != 2) return 2;
    uint8_t *json = bytes_of(names[1], &length);
    closed(&one);
    refused_opens(&one);
    closed(&one);
    want(icu_locale_open(json, length, &one) == ICU_LOCALE_DONE, "the sample");
    commands(&one);
    refused_opens(&one);
    commands(&one);
    want(icu_locale_share(&one, &other) == ICU_LOCALE_DONE, "a share");
    want(icu_locale_open(json, length, &one) == ICU_LOCALE_DONE, "an open of an open handle");
    alone(json, length);
    supplements(json, length);
    unsettled();
    list_faults();
    places();
    refusal_texts();
    free(json);
    commands(&other);
    wrong_words(&one);
    without_list(&one);
    rooms(&one, "maximize");
    lists(&one);
    in_syntax(&one);
    many(&one);
    want(list_of(&one, "en-US zh-Hant yue-CN", &other) == ICU_LOCALE_DONE, "a list into a handle to the same tables");
    left_out(&one, &other);
    negotiations(&other);
    want(icu_locale_share(&other, &one) == ICU_LOCALE_DONE, "a share to an open handle");
    icu_locale_close(&other);
    commands(&one);
    icu_locale_close(&one);
    closed(&one);
    return faults != 0;
}

// Each request for memory is refused in its turn: `memory TABLES`, a file with the sample. Built with the linker's
// --wrap=malloc and --wrap=realloc, so that the library's requests come here.
#include "shared.h"

static long requests, refused_at;

void *__real_malloc(size_t size);
void *__real_realloc(void *block, size_t size);

static int is_refused(void) {
    requests += 1;
    return requests == refused_at;
}

void *__wrap_malloc(size_t size) {
    return is_refused() ? NULL : __real_malloc(size);
}

void *__wrap_realloc(void *block, size_t size) {
    return is_refused() ? NULL : __real_realloc(block, size);
}

static uint8_t *json;
static size_t length;

static const char *rows[][3] = {
    {"maximize", "de-1996-1901", "de-Latn-DE-1901-1996\tM"},
    {"canonicalize", "sh\tabcdefg", "sr-Latn\txyz\tM"},
    {"canonicalize", "ja\tpiece000-piece001", "ja\tpiece000-piece001\tU"},
    {"name light en", "it-Latn-fonipa-posix", "Italian (Latin, IPA Phonetics, posix)\tR"},
    {"maximize", "e", "?\tInvalidLanguage"},
    {"key", "ja-Latn-hepburn-heploc", "ja-Latn-alalc97\tM"},
    {"locales key", "en-US-u-rg-abcdefg", "en-u-rg-xyz\tM"},
    {"fallback", "en-AU-1996-fonipa", "en-AU-1996-fonipa en-AU en-001 en und"},
    {"negotiate", "fr de-1996-1901 zh-TW", "2\tzh-Hant"},
};

// The last row is for a handle with a list.
enum { ROWS = sizeof rows / sizeof *rows - 1 };

static int32_t row_of(struct icu_locale *handle, int row) {
    static uint8_t out[128];
    size_t written;
    int32_t number = icu_locale_answer(handle, (const uint8_t *)rows[row][0], strlen(rows[row][0]), (const uint8_t *)rows[row][1],
                                       strlen(rows[row][1]), out, sizeof out, &written);
    if (number == ICU_LOCALE_ACCEPTED || number == ICU_LOCALE_REFUSED)
        want(written == strlen(rows[row][2]) && !memcmp(out, rows[row][2], written), "another answer, where memory is refused");
    else
        want(number == ICU_LOCALE_MEMORY && written == 0, "another number than that of refused memory");
    return number;
}

static int32_t list_of(struct icu_locale *from, const char *list, struct icu_locale *negotiator) {
    return icu_locale_available(from, (const uint8_t *)list, strlen(list), negotiator);
}

// Negotiates over a list in which `zh-Hant` has that place.
static int32_t meet(struct icu_locale *negotiator, size_t wanted) {
    size_t request = 77, available = 78;
    const char *line = rows[ROWS][1];
    int32_t number = icu_locale_negotiate(negotiator, (const uint8_t *)line, strlen(line), &request, &available);
    if (number == ICU_LOCALE_MET)
        want(request == 2 && available == wanted, "another place, where memory is refused");
    else
        want(number == ICU_LOCALE_MEMORY && request == 77 && available == 78, "places are written where memory is refused");
    return number;
}

// The same once more, where memory was refused.
static int met(struct icu_locale *negotiator, size_t wanted) {
    if (meet(negotiator, wanted) != ICU_LOCALE_MEMORY) return 0;
    want(meet(negotiator, wanted) == ICU_LOCALE_MET, "the next negotiation is refused too");
    return 1;
}

// A list into a closed handle, and another into the same: where that is refused, the first one stays.
static int negotiations(struct icu_locale *from) {
    struct icu_locale handle = {0};
    int refusals = 0;
    int32_t number = list_of(from, "en-US zh-Hant de-1996-fonipa yue-CN", &handle);
    want(number == ICU_LOCALE_DONE ? !!handle.at : number == ICU_LOCALE_MEMORY && !handle.at, "a list");
    refusals += number == ICU_LOCALE_MEMORY;
    if (number != ICU_LOCALE_DONE)
        want(list_of(from, "en-US zh-Hant de-1996-fonipa yue-CN", &handle) == ICU_LOCALE_DONE, "the next list");
    refusals += met(&handle, 1);
    for (int row = 0; row <= ROWS; row++) refusals += row_of(&handle, row) == ICU_LOCALE_MEMORY;
    number = list_of(from, "zh-Hant", &handle);
    want(handle.at && (number == ICU_LOCALE_DONE || number == ICU_LOCALE_MEMORY), "a list into an open handle");
    refusals += number == ICU_LOCALE_MEMORY;
    refusals += met(&handle, number == ICU_LOCALE_DONE ? 0 : 1);
    icu_locale_close(&handle);
    return refusals;
}

// The place of the text of a list that is none, and the same once more where memory was refused. It stays then.
static int list_fault(void) {
    static const char list[] = "en de-1996-fonipa en-";
    size_t place = 77;
    int32_t number = icu_locale_list_fault((const uint8_t *)"", 0, (const uint8_t *)list, sizeof list - 1, &place);
    want(number == ICU_LOCALE_LIST ? place == 2 : number == ICU_LOCALE_MEMORY && place == 77, "the place of a fault");
    if (number == ICU_LOCALE_LIST) return 0;
    number = icu_locale_list_fault((const uint8_t *)"", 0, (const uint8_t *)list, sizeof list - 1, &place);
    want(number == ICU_LOCALE_LIST && place == 2, "the next place of a fault");
    return 1;
}

// Where a text is wrong, and the same once more where memory was refused. Nothing is told then.
static int place(void) {
    static const char text[] = "de-1996-fonipa-u-co-phonebk-u-nu-thai";
    size_t from = 77, to = 77;
    int32_t number = icu_locale_fault((const uint8_t *)text, sizeof text - 1, &from, &to);
    want(number == ICU_LOCALE_REFUSED ? from == 28 && to == 29 : number == ICU_LOCALE_MEMORY && from == 77 && to == 77, "a place");
    if (number == ICU_LOCALE_REFUSED) return 0;
    number = icu_locale_fault((const uint8_t *)text, sizeof text - 1, &from, &to);
    want(number == ICU_LOCALE_REFUSED && from == 28 && to == 29, "the next place");
    return 1;
}

// A supplement, and the same once more where memory was refused.
static int supplement(struct icu_locale *handle) {
    static const char parents[] = "{\"parents\":{\"en-AU\":\"en-001\"}}";
    int32_t number = icu_locale_supplement(handle, (const uint8_t *)parents, sizeof parents - 1);
    want(number == ICU_LOCALE_DONE || number == ICU_LOCALE_MEMORY, "a supplement");
    if (number == ICU_LOCALE_DONE) return 0;
    want(icu_locale_supplement(handle, (const uint8_t *)parents, sizeof parents - 1) == ICU_LOCALE_DONE, "the next supplement");
    return 1;
}

// Names are lent and written, and the same once more where memory was refused. Nothing is written then.
static int names(struct icu_locale *handle) {
    static const uint8_t none[20] = "ICUTEXT1";
    static uint8_t out[8192];
    size_t written = 77;
    int32_t number = icu_locale_lend_names(handle, none, sizeof none);
    int refusals = number == ICU_LOCALE_MEMORY;
    want(number == ICU_LOCALE_DONE || number == ICU_LOCALE_MEMORY, "names are lent");
    if (refusals) want(icu_locale_lend_names(handle, none, sizeof none) == ICU_LOCALE_DONE, "the next names are lent");
    number = icu_locale_flat_names(handle, out, sizeof out, &written);
    want(number == ICU_LOCALE_ACCEPTED ? written > 20 : number == ICU_LOCALE_MEMORY && written == 0, "names are written");
    if (number == ICU_LOCALE_ACCEPTED) return refusals;
    want(icu_locale_flat_names(handle, out, sizeof out, &written) == ICU_LOCALE_ACCEPTED, "the next names are written");
    return refusals + 1;
}

// All that is done over two handles, and one with a list. Where a request is refused, what was held stays, and the call says so.
static int run(void) {
    struct icu_locale one = {0}, other = {0};
    int refusals = 0;
    int32_t number = icu_locale_open(json, length, &one);
    want(number == ICU_LOCALE_DONE ? !!one.at : number == ICU_LOCALE_MEMORY && !one.at, "an open");
    refusals += number == ICU_LOCALE_MEMORY;
    if (number != ICU_LOCALE_DONE) want(icu_locale_open(json, length, &one) == ICU_LOCALE_DONE, "the next open");
    refusals += supplement(&one);
    refusals += names(&one);
    for (int row = 0; row < ROWS; row++) {
        if (row_of(&one, row) != ICU_LOCALE_MEMORY) continue;
        refusals += 1;
        want(row_of(&one, row) != ICU_LOCALE_MEMORY, "the next call is refused too");
    }
    refusals += negotiations(&one);
    refusals += list_fault();
    refusals += place();
    long before = requests;
    number = icu_locale_share(&one, &other);
    want(requests == before + 1, "a share asks for memory once");
    want(number == ICU_LOCALE_DONE ? !!other.at : number == ICU_LOCALE_MEMORY && !other.at, "a share");
    refusals += number == ICU_LOCALE_MEMORY;
    number = icu_locale_open(json, length, &one);
    want(one.at && (number == ICU_LOCALE_DONE || number == ICU_LOCALE_MEMORY), "an open of an open handle");
    refusals += number == ICU_LOCALE_MEMORY;
    if (number == ICU_LOCALE_DONE) refusals += supplement(&one);
    for (int row = 0; row < ROWS; row++) refusals += row_of(&one, row) == ICU_LOCALE_MEMORY;
    icu_locale_close(&one);
    icu_locale_close(&other);
    return refusals;
}

// Asks with so much room, and tells how many requests the call makes.
static long requests_of(struct icu_locale *handle, const char *command, const char *line, size_t room, int32_t number) {
    static uint8_t out[64];
    size_t written;
    requests = 0;
    want(icu_locale_answer(handle, (const uint8_t *)command, strlen(command), (const uint8_t *)line, strlen(line), out, room,
                           &written) == number, command);
    return requests;
}

// The room of answers and the rules stay: behind a refused line, behind too little room, where no list is held, and where
// tables are left out.
static void stays_kept(struct icu_locale *handle) {
    struct icu_locale bare = {0};
    uint8_t out[32];
    size_t written;
    const char *likely = "{\"likely_language\":{\"und\":[\"en\",\"Latn\",\"US\"]},\"likely_script_region\":{}}";
    requests_of(handle, "canonicalize", "e", 64, ICU_LOCALE_REFUSED);
    want(requests_of(handle, "canonicalize", "sh", 64, ICU_LOCALE_ACCEPTED) == 0, "a refused line loses what is kept");
    requests_of(handle, "canonicalize", "sh", 3, ICU_LOCALE_ROOM);
    want(requests_of(handle, "canonicalize", "sh", 64, ICU_LOCALE_ACCEPTED) == 0, "too little room loses what is kept");
    requests_of(handle, "negotiate", "sh", 64, ICU_LOCALE_NEGOTIATE);
    want(requests_of(handle, "canonicalize", "sh", 64, ICU_LOCALE_ACCEPTED) == 0, "a call without a list loses what is kept");
    want(icu_locale_open((const uint8_t *)likely, strlen(likely), &bare) == ICU_LOCALE_DONE, "likely tables alone");
    requests_of(&bare, "maximize", "zh-TW", 64, ICU_LOCALE_ACCEPTED);
    requests_of(&bare, "direction", "zh-TW", 64, ICU_LOCALE_TABLE);
    requests_of(&bare, "canonicalize", "zh-TW", 64, ICU_LOCALE_TABLE);
    want(requests_of(&bare, "maximize", "zh-TW", 64, ICU_LOCALE_ACCEPTED) == 0, "a table that is left out loses what is kept");
    requests = 0;
    want(icu_locale_missing(&bare, (const uint8_t *)"locales key", 11, out, sizeof out, &written) == ICU_LOCALE_ACCEPTED
             && written == 7 && !memcmp(out, "aliases", 7), "the table that is left out");
    want(icu_locale_missing(&bare, (const uint8_t *)"exemplars main en", 17, out, sizeof out, &written) == ICU_LOCALE_ACCEPTED,
         "the set that is left out");
    want(icu_locale_missing(&bare, (const uint8_t *)"maximize", 8, out, sizeof out, &written) == ICU_LOCALE_REFUSED, "no table");
    want(requests == 0, "what is missing takes memory");
    want(requests_of(&bare, "maximize", "zh-TW", 64, ICU_LOCALE_ACCEPTED) == 0, "what is missing loses what is kept");
    icu_locale_close(&bare);
}

// What is prepared is kept: behind the first call of a command, calls on an identifier without variants take no memory.
static void kept(void) {
    struct icu_locale handle = {0};
    const char *commands[] = {"maximize", "minimize", "canonicalize", "direction"};
    uint8_t out[64];
    size_t written;
    want(icu_locale_open(json, length, &handle) == ICU_LOCALE_DONE, "the sample");
    for (size_t place = 0; place < sizeof commands / sizeof *commands; place++)
        for (int time = 0; time < 3; time++) {
            requests = 0;
            want(icu_locale_answer(&handle, (const uint8_t *)commands[place], strlen(commands[place]), (const uint8_t *)"zh-TW", 5,
                                   out, sizeof out, &written) == ICU_LOCALE_ACCEPTED, commands[place]);
            want(time == 0 || requests == 0, "a later call takes memory");
        }
    stays_kept(&handle);
    icu_locale_close(&handle);
}

// A negotiation takes memory for the list of requests alone, the first time too.
static void kept_lists(void) {
    struct icu_locale from = {0}, negotiator = {0};
    size_t request, available;
    want(icu_locale_open(json, length, &from) == ICU_LOCALE_DONE, "the sample");
    want(list_of(&from, "en-US zh-Hant yue-CN", &negotiator) == ICU_LOCALE_DONE, "a list");
    for (int time = 0; time < 3; time++) {
        requests = 0;
        want(icu_locale_negotiate(&negotiator, (const uint8_t *)"zh-TW", 5, &request, &available) == ICU_LOCALE_MET, "zh-TW");
        want(requests == 1, "a negotiation takes more memory than a list");
        requests = 0;
        want(icu_locale_negotiate(&negotiator, (const uint8_t *)"", 0, &request, &available) == ICU_LOCALE_NOT_MET, "nothing");
        want(requests == 0, "a negotiation over no request takes memory");
    }
    icu_locale_close(&negotiator);
    icu_locale_close(&from);
}

int main(int count, char **names) {
    if (count != 2) return 2;
    json = bytes_of(names[1], &length);
    requests = refused_at = 0;
    want(run() == 0, "a request is refused, and none should be");
    long all = requests, told = 0;
    for (long number = 1; number <= all; number++) {
        requests = 0;
        refused_at = number;
        told += run() > 0;
    }
    refused_at = 0;
    kept();
    kept_lists();
    printf("%ld requests, each refused in its turn: %ld calls say so, and the others did without\n", all, told);
    want(told > all / 2, "few calls say so");
    free(json);
    return faults != 0;
}

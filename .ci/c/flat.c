// Names that lie in a flat file are lent, and those of tables are written as one: `flat TABLES`, a file with the sample. Each
// file is in a block of exactly its size, so that a read behind it is seen, and in one that is gone.
#include "shared.h"

enum { STAYS = 77, MOST = 8192 };

static char text[4096];
static size_t written;

static void answers(struct icu_locale *handle, const char *command, const char *line, int32_t number, const char *wanted) {
    int32_t told = ask(handle, command, line, 4000, text, &written);
    if (told != number || (number <= ICU_LOCALE_REFUSED && strcmp(text, wanted))) {
        printf("%s: %s: %d %s, and not %d %s\n", command, line, told, text, number, wanted);
        faults += 1;
    }
}

// A file that is put together: two groups with a run each. A run's rows are keys and texts, one behind the other.
struct group {
    const char *name, *rows[6];
};

static void put(uint8_t *flat, size_t *at, size_t number, size_t bytes) {
    while (bytes-- > 0) {
        flat[(*at)++] = (uint8_t)(number & 255);
        number >>= 8;
    }
}

static size_t put_text(uint8_t *texts, size_t *at, const char *text) {
    size_t place = *at;
    memcpy(texts + place, text, strlen(text));
    *at += strlen(text);
    return place;
}

static size_t rows_of(const struct group *group) {
    size_t many = 0;
    while (many < 6 && group->rows[many]) many++;
    return many / 2;
}

static uint8_t *file_of(const struct group groups[2], size_t *length) {
    static uint8_t flat[MOST], texts[MOST];
    size_t at = 8, end = 0, many = rows_of(&groups[0]) + rows_of(&groups[1]);
    memcpy(flat, "ICUTEXT1", 8);
    put(flat, &at, 2, 4);
    put(flat, &at, 2, 4);
    put(flat, &at, many, 4);
    for (size_t place = 0; place < 2; place++) {
        put(flat, &at, put_text(texts, &end, groups[place].name), 4);
        put(flat, &at, strlen(groups[place].name), 4);
        put(flat, &at, place, 4);
    }
    put(flat, &at, rows_of(&groups[0]), 4);
    put(flat, &at, many, 4);
    for (size_t place = 0; place < 2; place++)
        for (size_t row = 0; row < rows_of(&groups[place]); row++) {
            const char *key = groups[place].rows[2 * row], *name = groups[place].rows[2 * row + 1];
            put(flat, &at, put_text(texts, &end, key), 4);
            put(flat, &at, put_text(texts, &end, name), 4);
            put(flat, &at, strlen(key), 2);
            put(flat, &at, strlen(name), 2);
        }
    memcpy(flat + at, texts, end);
    *length = at + end;
    uint8_t *block = malloc(*length);
    if (!block) exit(2);
    memcpy(block, flat, *length);
    return block;
}

static const struct group LENT[2] = {
    {"en/language/medium/light", {"de", "Lent German", "it", "Lent Italian"}},
    {"en/region/medium/light", {"150", "Lent Europe", "QX", "Qu\xc3\xa9", "us", "not in written form"}},
};

static const struct group OTHER[2] = {
    {"en/language/medium/light", {"de", "Other German"}},
    {"no group of names", {"QX", "never asked"}},
};

static void opened(struct icu_locale *handle, const uint8_t *json, size_t length) {
    want(icu_locale_open(json, length, handle) == ICU_LOCALE_DONE, "the sample");
}

// What the sample's own names are, whatever is lent.
static void own_names(struct icu_locale *handle) {
    answers(handle, "region-name light en", "150", ICU_LOCALE_ACCEPTED, "Europe\tN");
    answers(handle, "language-name light en", "it", ICU_LOCALE_ACCEPTED, "Italian\tN");
    answers(handle, "maximize", "zh-TW", ICU_LOCALE_ACCEPTED, "zh-Hant-TW\tM");
    answers(handle, "name light zh", "it", ICU_LOCALE_REFUSED, "?\tIdentifierNotFound");
}

static void lent_names(struct icu_locale *handle) {
    own_names(handle);
    answers(handle, "region-name light en", "QX", ICU_LOCALE_ACCEPTED, "Qu\xc3\xa9\tN");
    answers(handle, "region-name light en", "QY", ICU_LOCALE_ACCEPTED, "QY\tR");
    answers(handle, "name light en", "de-QX", ICU_LOCALE_ACCEPTED, "Lent German (Qu\xc3\xa9)\tN");
    answers(handle, "list regions en", "", ICU_LOCALE_ACCEPTED, "150 QX US");
}

static void no_lent_names(struct icu_locale *handle) {
    own_names(handle);
    answers(handle, "name light en", "de-QX", ICU_LOCALE_ACCEPTED, "de (QX)\tR");
    answers(handle, "list regions en", "", ICU_LOCALE_ACCEPTED, "150 US");
}

static void closed(struct icu_locale *handle) {
    size_t length;
    uint8_t *flat = file_of(LENT, &length), out = '#';
    want(icu_locale_lend_names(handle, flat, length) == ICU_LOCALE_CLOSED, "names are lent to a closed handle");
    want(icu_locale_lend_names(handle, flat, 3) == ICU_LOCALE_CLOSED, "what is no file is lent to a closed handle");
    written = STAYS;
    want(icu_locale_flat_names(handle, &out, 1, &written) == ICU_LOCALE_CLOSED && written == 0 && out == '#',
         "names of a closed handle");
    want(!handle->at, "a closed handle is not zero");
    free(flat);
}

// Each beginning of a file, and files with one byte changed, are refused by number, and nothing changes.
static void wrong_bytes(struct icu_locale *handle) {
    size_t length, place;
    uint8_t *flat = file_of(OTHER, &length);
    void *at = handle->at;
    for (place = 0; place < length; place++) {
        uint8_t *part = malloc(place ? place : 1);
        if (!part) exit(2);
        memcpy(part, flat, place);
        want(icu_locale_lend_names(handle, part, place) == ICU_LOCALE_SHAPE, "the beginning of a file");
        free(part);
    }
    size_t places[] = {0, 7, 8, 12, 16, 20, 23, 24, 28, 44, 48, 52, 55, 56, 60};
    for (place = 0; place < sizeof places / sizeof *places; place++) {
        flat[places[place]] ^= 0x81;
        want(icu_locale_lend_names(handle, flat, length) == ICU_LOCALE_SHAPE, "a file with a changed byte");
        flat[places[place]] ^= 0x81;
    }
    flat[length - 1] = 0xff;
    want(icu_locale_lend_names(handle, flat, length) == ICU_LOCALE_SHAPE, "texts that are none of UTF-8");
    want(handle->at == at, "a handle moves where bytes are refused");
    free(flat);
}

static void lends(const uint8_t *json, size_t json_length) {
    struct icu_locale one = {0};
    size_t length, other_length;
    uint8_t *flat = file_of(LENT, &length), *other = file_of(OTHER, &other_length), none[20] = "ICUTEXT1";
    closed(&one);
    opened(&one, json, json_length);
    no_lent_names(&one);
    wrong_bytes(&one);
    no_lent_names(&one);
    want(icu_locale_lend_names(&one, flat, length) == ICU_LOCALE_DONE, "names are lent");
    lent_names(&one);
    wrong_bytes(&one);
    lent_names(&one);
    want(icu_locale_lend_names(&one, other, other_length) == ICU_LOCALE_DONE, "other names are lent");
    free(flat);
    own_names(&one);
    answers(&one, "name light en", "de-QX", ICU_LOCALE_ACCEPTED, "Other German (QX)\tR");
    answers(&one, "list regions en", "", ICU_LOCALE_ACCEPTED, "150 US");
    want(icu_locale_lend_names(&one, none, sizeof none) == ICU_LOCALE_DONE, "no names are lent");
    free(other);
    no_lent_names(&one);
    icu_locale_close(&one);
    closed(&one);
}

// Tables that two handles have get no other names, and keep those that they have until both are closed.
static void shares(const uint8_t *json, size_t json_length) {
    struct icu_locale one = {0}, other = {0}, negotiator = {0};
    size_t length;
    uint8_t *flat = file_of(LENT, &length);
    opened(&one, json, json_length);
    want(icu_locale_lend_names(&one, flat, length) == ICU_LOCALE_DONE, "names are lent before a share");
    want(icu_locale_share(&one, &other) == ICU_LOCALE_DONE, "a share");
    lent_names(&other);
    want(icu_locale_lend_names(&one, flat, length) == ICU_LOCALE_SHARED, "names for tables that are shared");
    want(icu_locale_lend_names(&other, flat, length) == ICU_LOCALE_SHARED, "names for a share");
    want(icu_locale_lend_names(&other, flat, length - 1) == ICU_LOCALE_SHAPE, "what is no file, for a share");
    lent_names(&one);
    want(icu_locale_available(&one, (const uint8_t *)"en zh-Hant", 10, &negotiator) == ICU_LOCALE_DONE, "a list");
    icu_locale_close(&one);
    icu_locale_close(&other);
    lent_names(&negotiator);
    answers(&negotiator, "negotiate", "zh-TW", ICU_LOCALE_ACCEPTED, "0\tzh-Hant");
    want(icu_locale_lend_names(&negotiator, flat, length) == ICU_LOCALE_DONE, "names for the last handle");
    lent_names(&negotiator);
    icu_locale_close(&negotiator);
    free(flat);
    opened(&one, json, json_length);
    no_lent_names(&one);
    icu_locale_close(&one);
}

// The names in a room of exactly so many bytes, of which those behind them stay.
static int32_t in_room(struct icu_locale *handle, size_t room, uint8_t *names) {
    uint8_t *out = malloc(room ? room : 1);
    if (!out) exit(2);
    memset(out, '#', room ? room : 1);
    written = STAYS;
    int32_t number = icu_locale_flat_names(handle, out, room, &written);
    size_t told = number == ICU_LOCALE_ACCEPTED ? written : 0;
    for (size_t place = told; place < room; place++) want(out[place] == '#', "a byte behind the names is written");
    memcpy(names, out, told);
    free(out);
    return number;
}

static void rooms(const uint8_t *json, size_t json_length) {
    static uint8_t names[MOST], again[MOST];
    const char *bare = "{\"essentials\":{\"en\":{\"pattern\":[0,\" (\",1,\")\"],\"separator\":[0,\", \",1]}}}";
    struct icu_locale one = {0}, other = {0};
    size_t length, lent_length;
    uint8_t *flat = file_of(LENT, &lent_length);
    opened(&one, json, json_length);
    want(in_room(&one, 0, names) == ICU_LOCALE_ROOM && written > 20 && written < MOST, "how many bytes the names have");
    length = written;
    for (size_t room = 0; room < length + 5; room++) {
        want(in_room(&one, room, names) == (room < length ? ICU_LOCALE_ROOM : ICU_LOCALE_ACCEPTED), "a room for names");
        want(written == length, "another length is told than that of the names");
    }
    want(icu_locale_lend_names(&one, flat, lent_length) == ICU_LOCALE_DONE, "names are lent");
    want(in_room(&one, MOST, again) == ICU_LOCALE_ACCEPTED && written == length && !memcmp(names, again, length),
         "what is lent is written too");
    want(icu_locale_open((const uint8_t *)bare, strlen(bare), &other) == ICU_LOCALE_DONE, "tables without names");
    want(in_room(&other, MOST, again) == ICU_LOCALE_ACCEPTED && written == 20, "no names are another file");
    answers(&other, "name light en", "it-150", ICU_LOCALE_ACCEPTED, "it (150)\tR");
    want(icu_locale_lend_names(&other, names, length) == ICU_LOCALE_DONE, "the names of one handle are lent to another");
    answers(&other, "name light en", "it-150", ICU_LOCALE_ACCEPTED, "Italian (Europe)\tN");
    icu_locale_close(&one);
    icu_locale_close(&other);
    free(flat);
}

int main(int count, char **names) {
    if (count != 2) return 2;
    size_t length;
    uint8_t *json = bytes_of(names[1], &length);
    lends(json, length);
    shares(json, length);
    rooms(json, length);
    free(json);
    return faults != 0;
}

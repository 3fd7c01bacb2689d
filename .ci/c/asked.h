// Calls whose answers are wanted: each is made, and a line tells what is not as it should be.
#include "shared.h"

// What a place is before a call, and stays where it is not told.
enum { STAYS = 77 };

static char text[4096];
static size_t written;

// Where there is no answer, no length is told.
static void answers(struct icu_locale *handle, const char *command, const char *line, int32_t number, const char *wanted) {
    written = 77;
    int32_t told = ask(handle, command, line, 4000, text, &written);
    want(told == ICU_LOCALE_ACCEPTED || told == ICU_LOCALE_REFUSED || written == 0, "a length is told where there is no answer");
    if (told != number || strcmp(text, wanted)) {
        printf("%s: %s: %d %s, and not %d %s\n", command, line, told, text, number, wanted);
        faults += 1;
    }
}

static int32_t list_of(struct icu_locale *from, const char *list, struct icu_locale *negotiator) {
    uint8_t *bytes = copy_of(list);
    int32_t number = icu_locale_available(from, bytes, strlen(list), negotiator);
    free(bytes);
    return number;
}

// Negotiates, and looks at the two places. Where the number is not MET, both stay.
static void meets(struct icu_locale *handle, const char *requests, int32_t number, size_t request, size_t available) {
    size_t *places = malloc(sizeof *places), *other = malloc(sizeof *other);
    uint8_t *bytes = copy_of(requests);
    if (!places || !other) exit(2);
    *places = *other = STAYS;
    int32_t told = icu_locale_negotiate(handle, bytes, strlen(requests), places, other);
    if (number != ICU_LOCALE_MET) request = available = STAYS;
    if (told != number || *places != request || *other != available) {
        printf("negotiate: %s: %d %zu %zu, and not %d %zu %zu\n", requests, told, *places, *other, number, request, available);
        faults += 1;
    }
    free(bytes);
    free(places);
    free(other);
}

// The same two calls in a syntax.
static int32_t listed_in(struct icu_locale *from, const char *syntax, const char *list, struct icu_locale *negotiator) {
    uint8_t *word = copy_of(syntax), *bytes = copy_of(list);
    int32_t number = icu_locale_available_in(from, word, strlen(syntax), bytes, strlen(list), negotiator);
    free(word);
    free(bytes);
    return number;
}

static int32_t met_in(struct icu_locale *handle, const char *syntax, const char *requests, size_t *request, size_t *available) {
    uint8_t *word = copy_of(syntax), *bytes = copy_of(requests);
    int32_t number = icu_locale_negotiate_in(handle, word, strlen(syntax), bytes, strlen(requests), request, available);
    free(word);
    free(bytes);
    return number;
}

// The place of the first text of a list that is none.
static void fault(const char *syntax, const char *list, int32_t number, size_t wanted) {
    uint8_t *word = copy_of(syntax), *bytes = copy_of(list);
    size_t place = STAYS;
    int32_t told = icu_locale_list_fault(word, strlen(syntax), bytes, strlen(list), &place);
    if (told != number || place != (number == ICU_LOCALE_LIST ? wanted : STAYS)) {
        printf("list_fault: %s %s: %d %zu, and not %d %zu\n", syntax, list, told, place, number, wanted);
        faults += 1;
    }
    free(word);
    free(bytes);
}

// The bytes of the first piece of a text that no locale identifier can have there. Nothing is told of one.
static void placed(const char *text, int32_t number, size_t from, size_t to) {
    uint8_t *bytes = copy_of(text);
    size_t first = STAYS, behind = STAYS;
    int32_t told = icu_locale_fault(bytes, strlen(text), &first, &behind);
    if (number != ICU_LOCALE_REFUSED) from = to = STAYS;
    if (told != number || first != from || behind != to) {
        printf("fault: %s: %d %zu %zu, and not %d %zu %zu\n", text, told, first, behind, number, from, to);
        faults += 1;
    }
    free(bytes);
}

// The name of the data, in so much room. Nothing is written where there is none.
static void data_named(struct icu_locale *handle, size_t room, int32_t number, const char *name) {
    uint8_t *out = malloc(room + 1);
    size_t written = STAYS, length = strlen(name);
    memset(out, '#', room + 1);
    int32_t told = icu_locale_data_name(handle, out, room, &written);
    size_t put = told == ICU_LOCALE_ACCEPTED ? length : 0;
    if (told != number || written != length || memcmp(out, name, put) || out[put] != '#') {
        printf("data_name: %d %zu, and not %d %s\n", told, written, number, name);
        faults += 1;
    }
    free(out);
}

// The text of a number, in so much room. Nothing is written where there is none.
static void texts(int32_t number, size_t room, int32_t wanted, const char *text) {
    uint8_t *out = malloc(room + 1);
    size_t written = STAYS, length = strlen(text);
    memset(out, '#', room + 1);
    int32_t told = icu_locale_refusal_text(number, out, room, &written);
    size_t put = told == ICU_LOCALE_ACCEPTED ? length : 0;
    if (told != wanted || written != length || memcmp(out, text, put) || out[put] != '#') {
        printf("refusal_text: %d: %d %zu, and not %d %s\n", number, told, written, wanted, text);
        faults += 1;
    }
    free(out);
}

static void refuses(struct icu_locale *handle, const char *requests, int32_t number) {
    meets(handle, requests, number, 0, 0);
}

static int32_t supplement_of(struct icu_locale *handle, const char *json) {
    uint8_t *bytes = copy_of(json);
    int32_t number = icu_locale_supplement(handle, bytes, strlen(json));
    free(bytes);
    return number;
}

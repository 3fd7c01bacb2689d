// The program over C's calls: `lines TABLES COMMAND [SUPPLEMENT]` answers each line of its input, and ends with the status
// of the program: 0, 1 where a line is refused, and 2 with a number on standard error where there is no answer. At
// `negotiate`, `serve`, `nearest` and `resolved` the first line is the list, and the places of each negotiation have to tell
// what the line of its answer tells: where they do not, the status is 3.
#include "shared.h"
#include <ctype.h>

static struct icu_locale tables, negotiator;
static char *line;
static size_t length, size;

static int refuse(int32_t number) {
    fprintf(stderr, "%d\n", number);
    return 2;
}

// The next line of the input, without its line feed. Behind the last one stands an empty one, and 0 is told.
static int next_line(void) {
    ssize_t read = getline(&line, &size, stdin);
    if (!line) exit(3);
    length = read > 0 ? (size_t)read - (line[read - 1] == '\n') : 0;
    line[length] = 0;
    return read > 0;
}

static int settled(void) {
    int32_t number = icu_locale_is_settled(&tables);
    if (number != ICU_LOCALE_SETTLED && number != ICU_LOCALE_NOT_SETTLED) return refuse(number);
    printf("%s\n", number == ICU_LOCALE_SETTLED ? "yes" : "no");
    return 0;
}

// Case and separators aside.
static int is_same_text(const char *one, const char *other) {
    for (; *one && tolower(*one == '_' ? '-' : *one) == tolower(*other); one++) other++;
    return !*one && !*other;
}

// Whether the places of a negotiation tell what the text of the answer tells, over a list whose variants are in order.
static int are_places(const char *list, int32_t number, const char *text) {
    size_t request, available;
    int32_t told = icu_locale_negotiate(&negotiator, (const uint8_t *)line, length, &request, &available);
    if (told == ICU_LOCALE_LIST) return number == ICU_LOCALE_REFUSED;
    if (told == ICU_LOCALE_NOT_MET) return number == ICU_LOCALE_ACCEPTED && !strcmp(text, "none");
    char *copy = strdup(list), *rest = copy, *found = strsep(&rest, " "), *end;
    for (; found && available; available--) found = strsep(&rest, " ");
    int is_place = told == ICU_LOCALE_MET && found && strtoul(text, &end, 10) == request && *end == '\t'
                   && is_same_text(found, end + 1);
    free(copy);
    return is_place;
}

// Answers each line, by a handle with the list where there is one.
static int answers(struct icu_locale *handle, const char *command, const char *list) {
    size_t room = 8, written = 0;
    uint8_t *out = malloc(room + 1);
    int status = 0;
    int32_t number;
    while (status < 2 && next_line()) {
        do {
            number = icu_locale_answer(handle, (const uint8_t *)command, strlen(command), (const uint8_t *)line, length, out,
                                       room, &written);
        } while (number == ICU_LOCALE_ROOM && (out = realloc(out, (room = written) + 1)));
        if (number != ICU_LOCALE_ACCEPTED && number != ICU_LOCALE_REFUSED) {
            status = refuse(number);
            break;
        }
        if (number == ICU_LOCALE_REFUSED) status = 1;
        out[written] = 0;
        if (list && !are_places(list, number, (const char *)out)) status = 3;
        printf("%s\n", (const char *)out);
    }
    free(out);
    return status;
}

// Tables that are not settled are told before the first request, as by the program.
static int over_list(const char *command) {
    size_t request, available;
    next_line();
    char *list = strdup(line);
    int32_t number = icu_locale_available(&tables, (const uint8_t *)line, length, &negotiator);
    icu_locale_close(&tables);
    int is_places = !strcmp(command, "negotiate");
    if (is_places && number == ICU_LOCALE_DONE) {
        int32_t told = icu_locale_negotiate(&negotiator, (const uint8_t *)"", 0, &request, &available);
        if (told == ICU_LOCALE_UNSETTLED) number = told;
    }
    int status = number == ICU_LOCALE_DONE ? answers(&negotiator, command, is_places ? list : NULL) : refuse(number);
    free(list);
    return status;
}

// Reads the tables, and their supplement where a file of it is named.
static int32_t opened(const char *path, const char *supplement) {
    uint8_t *json = bytes_of(path, &size);
    int32_t number = icu_locale_open(json, size, &tables);
    free(json);
    if (supplement && number == ICU_LOCALE_DONE) {
        json = bytes_of(supplement, &size);
        number = icu_locale_supplement(&tables, json, size);
        free(json);
    }
    size = 0;
    return number;
}

// Whether the last of some words is that of a command over a list.
static int is_over_list(const char *command) {
    const char *tasks[] = {"negotiate", "serve", "nearest", "resolved"}, *behind = strrchr(command, ' ');
    for (size_t place = 0; place < sizeof tasks / sizeof *tasks; place++)
        if (!strcmp(behind ? behind + 1 : command, tasks[place])) return 1;
    return 0;
}

int main(int count, char **names) {
    if (count != 3 && count != 4) return 3;
    int32_t number = opened(names[1], count == 4 ? names[3] : NULL);
    int status;
    if (number != ICU_LOCALE_DONE)
        status = refuse(number);
    else if (!strcmp(names[2], "settled"))
        status = settled();
    else if (is_over_list(names[2]))
        status = over_list(names[2]);
    else
        status = answers(&tables, names[2], NULL);
    free(line);
    icu_locale_close(&tables);
    icu_locale_close(&negotiator);
    return status;
}

// Names a locale over CLDR's data of the machine, which Debian's package icu-locale-data has:
//     cc examples/name.c $(pkg-config --cflags --libs icu_locale) -lz && ./a.out en de-AT
#include "icu_locale_data.h"

// What a number says, where a call gives no answer.
static void tell(int32_t number) {
    uint8_t text[64];
    size_t written;
    if (number == ICU_LOCALE_NO_DATA)
        fprintf(stderr, "CLDR's data: %s\n", strerror(errno));
    else if (number == ICU_LOCALE_NO_LOCALE)
        fprintf(stderr, "CLDR has no names in that locale\n");
    else if (icu_locale_refusal_text(number, text, sizeof text, &written) == ICU_LOCALE_ACCEPTED)
        fprintf(stderr, "%.*s\n", (int)written, (const char *)text);
}

int main(int count, char **words) {
    struct icu_locale tables = {0};
    char command[64];
    uint8_t name[256];
    size_t written = 0;
    int32_t number;
    if (count != 3 || snprintf(command, sizeof command, "name light %s", words[1]) >= (int)sizeof command) return 2;
    number = icu_locale_open_cldr(words[1], &tables);
    if (number == ICU_LOCALE_DONE)
        number = icu_locale_answer(&tables, (const uint8_t *)command, strlen(command), (const uint8_t *)words[2],
                                   strlen(words[2]), name, sizeof name, &written);
    if (number == ICU_LOCALE_ACCEPTED || number == ICU_LOCALE_REFUSED)
        printf("%.*s\n", (int)written, (const char *)name);
    else
        tell(number);
    icu_locale_close(&tables);
    return number != ICU_LOCALE_ACCEPTED;
}

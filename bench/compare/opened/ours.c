// The first answer of the library in a new process. `ours COMMAND IDENTIFIER TABLES` opens the tables of a file, and `ours
// COMMAND IDENTIFIER FOLDER LOCALES` CLDR's data in a folder, with the names in some locales. Nothing is closed: the
// process ends.
#include "icu_locale_data.h"

static int32_t opened(const char *path, struct icu_locale *handle) {
    FILE *file = fopen(path, "rb");
    long length = file && !fseek(file, 0, SEEK_END) ? ftell(file) : -1;
    uint8_t *json = length > 0 ? malloc((size_t)length) : NULL;
    int32_t number = ICU_LOCALE_MEMORY;
    if (json && !fseek(file, 0, SEEK_SET) && fread(json, 1, (size_t)length, file) == (size_t)length)
        number = icu_locale_open(json, (size_t)length, handle);
    free(json);
    return number;
}

int main(int count, char **words) {
    struct icu_locale handle = {0};
    uint8_t out[256];
    size_t written = 0;
    int32_t number;
    if (count != 4 && count != 5) return 2;
    if (count == 5) setenv(ICU_LOCALE_DATA_VARIABLE, words[3], 1);
    number = count == 5 ? icu_locale_open_cldr(words[4], &handle) : opened(words[3], &handle);
    if (number == ICU_LOCALE_DONE)
        number = icu_locale_answer(&handle, (const uint8_t *)words[1], strlen(words[1]), (const uint8_t *)words[2],
                                   strlen(words[2]), out, sizeof out, &written);
    return number != ICU_LOCALE_ACCEPTED || printf("%.*s\n", (int)written, (const char *)out) < 0;
}

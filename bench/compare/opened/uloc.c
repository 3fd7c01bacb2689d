// The first answer of ICU4C in a new process: `uloc COMMAND LOCALE`, the maximal form or else the name in English.
#include <stdio.h>
#include <string.h>
#include <unicode/uloc.h>
#include <unicode/ustring.h>

int main(int count, char **words) {
    UErrorCode error = U_ZERO_ERROR;
    UChar name[256];
    char out[256];
    if (count != 3) return 2;
    if (!strcmp(words[1], "maximize")) {
        uloc_addLikelySubtags(words[2], out, sizeof out, &error);
    } else {
        int32_t length = uloc_getDisplayName(words[2], "en", name, 256, &error);
        u_strToUTF8(out, sizeof out, NULL, name, length, &error);
    }
    return U_FAILURE(error) || puts(out) < 0;
}

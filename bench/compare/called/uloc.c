// Asks ICU4C: `uloc COMMAND IDENTIFIERS TIMES`, as ours.c does. `version` alone writes ICU's.
#include "shared.h"
#include <unicode/uloc.h>
#include <unicode/uversion.h>

static int32_t ask(const char *command, const char *line, char *out, int32_t room) {
    UErrorCode error = U_ZERO_ERROR;
    if (!strcmp(command, "maximize")) return uloc_addLikelySubtags(line, out, room, &error);
    if (!strcmp(command, "minimize")) return uloc_minimizeSubtags(line, out, room, &error);
    return uloc_canonicalize(line, out, room, &error);
}

int main(int count, char **words) {
    if (count == 2) return printf("ICU4C %s\n", U_ICU_VERSION) < 0;
    if (count != 4) return 2;
    struct lines lines = lines_of(words[2]);
    char out[256];
    size_t sum = 0;
    long times = atol(words[3]);
    double begin = 0;
    for (long time = -1; time < times; time++) {
        if (time == 0) begin = now();
        for (size_t place = 0; place < lines.count; place++)
            sum += (size_t)ask(words[1], lines.text[place], out, sizeof out);
    }
    tell(begin, times, lines.count, sum);
    return 0;
}

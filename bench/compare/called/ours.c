// Asks the proved library: `ours TABLES COMMAND IDENTIFIERS TIMES`. Behind a first pass over the identifiers, which
// prepares what is kept, they are asked so many times, and nanoseconds of processor time a call are written.
#include "icu_locale.h"
#include "shared.h"

int main(int count, char **words) {
    if (count != 5) return 2;
    struct lines lines = lines_of(words[3]), json = lines_of(words[1]);
    struct icu_locale tables = {0};
    uint8_t out[256];
    size_t written, command = strlen(words[2]), sum = 0;
    if (icu_locale_open((const uint8_t *)json.text[0], json.length[0], &tables)) return 2;
    long times = atol(words[4]);
    double begin = 0;
    for (long time = -1; time < times; time++) {
        if (time == 0) begin = now();
        for (size_t place = 0; place < lines.count; place++) {
            int32_t number = icu_locale_answer(&tables, (const uint8_t *)words[2], command, (const uint8_t *)lines.text[place],
                                               lines.length[place], out, sizeof out, &written);
            sum += written + (size_t)number;
        }
    }
    tell(begin, times, lines.count, sum);
    icu_locale_close(&tables);
    return 0;
}

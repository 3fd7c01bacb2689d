// Reads a language tag and writes it again by ICU4C: `icu WAY TAG TIMES`, where WAY is `uloc`, for its calls for C, or
// `Locale`. It writes the nanoseconds of processor time that each time took, after a first one that is not counted, and
// what was written. `icu versions` writes ICU's and CLDR's.
#include <cstdio>
#include <cstdlib>
#include <cstring>
#include <ctime>
#include <string>
#include <unicode/bytestream.h>
#include <unicode/locid.h>
#include <unicode/ulocdata.h>
#include <unicode/uloc.h>
#include <unicode/uversion.h>

static bool by_calls(const char *tag, std::string &written) {
    char own[256], out[256];
    UErrorCode error = U_ZERO_ERROR;
    int32_t read = 0;
    uloc_forLanguageTag(tag, own, sizeof own, &read, &error);
    int32_t length = uloc_toLanguageTag(own, out, sizeof out, true, &error);
    if (U_FAILURE(error) || read != (int32_t)strlen(tag)) return false;
    written.assign(out, length);
    return true;
}

static bool by_locale(const char *tag, std::string &written) {
    UErrorCode error = U_ZERO_ERROR;
    icu::StringByteSink<std::string> sink(&written);
    icu::Locale::forLanguageTag(tag, error).toLanguageTag(sink, error);
    return U_SUCCESS(error);
}

static double now() {
    timespec time;
    clock_gettime(CLOCK_PROCESS_CPUTIME_ID, &time);
    return time.tv_sec * 1e9 + time.tv_nsec;
}

static int versions() {
    UVersionInfo cldr;
    UErrorCode error = U_ZERO_ERROR;
    ulocdata_getCLDRVersion(cldr, &error);
    return std::printf("ICU4C %s with CLDR %d.%d\n", U_ICU_VERSION, cldr[0], cldr[1]) < 0;
}

int main(int count, char **words) {
    if (count == 2) return versions();
    if (count != 4) return 2;
    auto way = std::strcmp(words[1], "uloc") ? by_locale : by_calls;
    long times = std::atol(words[3]);
    std::string written;
    double begin = 0;
    for (long time = -1; time < times; time++) {
        if (time == 0) begin = now();
        written.clear();
        if (!way(words[2], written)) return 1;
    }
    std::printf("%.1f %s\n", (now() - begin) / times, written.c_str());
    return 0;
}

// What locales are called in English by ICU4C, one a line: the names of languages alone. A line that ICU refuses is
// marked. `named versions` says which ICU that is.
#include <cstdio>
#include <iostream>
#include <memory>
#include <string>

#include <unicode/locdspnm.h>
#include <unicode/locid.h>
#include <unicode/ulocdata.h>
#include <unicode/unistr.h>
#include <unicode/uversion.h>

using icu::Locale;
using icu::LocaleDisplayNames;
using icu::UnicodeString;

namespace {

const char *const REFUSED = "?";

int write_versions() {
    UErrorCode status = U_ZERO_ERROR;
    UVersionInfo version;
    char text[U_MAX_VERSION_STRING_LENGTH];
    ulocdata_getCLDRVersion(version, &status);
    u_versionToString(version, text);
    std::printf("ICU4C %s with CLDR %s\n", U_ICU_VERSION, text);
    return U_SUCCESS(status) ? 0 : 2;
}

std::string named(const LocaleDisplayNames &names, const std::string &line) {
    UErrorCode status = U_ZERO_ERROR;
    Locale locale = Locale::forLanguageTag(line, status);
    if (U_FAILURE(status)) {
        return REFUSED;
    }
    UnicodeString name;
    std::string text;
    names.localeDisplayName(locale, name).toUTF8String(text);
    return text;
}

} // namespace

int main(int count, char **words) {
    if (count == 2 && std::string(words[1]) == "versions") {
        return write_versions();
    }
    if (count != 1) {
        std::fprintf(stderr, "usage: named [versions]\n");
        return 2;
    }
    std::unique_ptr<LocaleDisplayNames> names(LocaleDisplayNames::createInstance(Locale("en"), ULDN_STANDARD_NAMES));
    for (std::string line; std::getline(std::cin, line);) {
        std::printf("%s\n", named(*names, line).c_str());
    }
    return 0;
}

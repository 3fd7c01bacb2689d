// Locale identifiers by line with ICU4C.
//
//     icu [own] COMMAND [LOCALE]
//
// The commands are those of icu_locale_cli, as far as ICU has them: maximize, minimize, canonicalize, direction,
// negotiate (the first line lists what is available) and `name LOCALE`. They read and write language tags, and refuse
// a line that is none. With `own` they take each line for an identifier of ICU's own form, refuse nothing, and make
// no tag of the result: the shortest way through ICU. `likely` and `names LOCALE` write rows of ICU's own data, and
// `versions` says which that is.
//
// Of icu_locale_stream there are nearest, serve (the first line lists what is available) and distance, over tags alone.
// A distance that is not below LocaleMatcher's threshold is written as `far`.
#include <algorithm>
#include <cmath>
#include <cstdio>
#include <iostream>
#include <iterator>
#include <sstream>
#include <string>
#include <vector>

#include <unicode/bytestream.h>
#include <unicode/localematcher.h>
#include <unicode/locdspnm.h>
#include <unicode/locid.h>
#include <unicode/uloc.h>
#include <unicode/ulocdata.h>
#include <unicode/unistr.h>
#include <unicode/ures.h>
#include <unicode/uversion.h>

using icu::Locale;
using icu::LocaleDisplayNames;
using icu::LocaleMatcher;
using icu::UnicodeString;

namespace {

constexpr int CAPACITY = 256;
const char *const REFUSED = "?";

// ICU writes subtags with `_` between them.
void append_hyphened(std::string &output, const char *identifier) {
    for (; *identifier != 0; identifier++) {
        output += *identifier == '_' ? '-' : *identifier;
    }
}

// The ways to take a line: as a language tag, or as an identifier of ICU's own form.
enum class Form { Tag, Own };

Locale read_locale(const std::string &text, Form form) {
    if (form == Form::Own) {
        return Locale(text.c_str());
    }
    UErrorCode status = U_ZERO_ERROR;
    Locale locale = Locale::forLanguageTag(text, status);
    if (U_FAILURE(status)) {
        locale.setToBogus();
    }
    return locale;
}

void append_locale(std::string &output, const Locale &locale, Form form) {
    if (locale.isBogus()) {
        output += REFUSED;
    } else if (form == Form::Own) {
        append_hyphened(output, locale.getName());
    } else {
        UErrorCode status = U_ZERO_ERROR;
        icu::StringByteSink<std::string> sink(&output);
        locale.toLanguageTag(sink, status);
    }
}

// One of ICU's calls that make an identifier of an identifier of its own form.
using OwnTransform = int32_t (*)(const char *, char *, int32_t, UErrorCode *);

void append_own(std::string &output, const char *line, OwnTransform transform) {
    char result[CAPACITY];
    UErrorCode status = U_ZERO_ERROR;
    transform(line, result, CAPACITY, &status);
    append_hyphened(output, U_SUCCESS(status) && result[0] != 0 ? result : REFUSED);
}

// One of ICU's calls that change a locale.
using Transform = void (Locale::*)(UErrorCode &);

void append_transformed(std::string &output, const std::string &line, Transform transform) {
    Locale locale = read_locale(line, Form::Tag);
    UErrorCode status = U_ZERO_ERROR;
    if (!locale.isBogus()) {
        (locale.*transform)(status);
    }
    append_locale(output, locale, Form::Tag);
}

void append_direction(std::string &output, const std::string &line, Form form) {
    if (form == Form::Own) {
        output += uloc_isRightToLeft(line.c_str()) ? "rtl" : "ltr";
        return;
    }
    Locale locale = read_locale(line, form);
    output += locale.isBogus() ? REFUSED : locale.isRightToLeft() ? "rtl" : "ltr";
}

void append_name(std::string &output, const std::string &line, Form form, const LocaleDisplayNames &names) {
    UnicodeString name;
    if (form == Form::Own) {
        names.localeDisplayName(line.c_str(), name).toUTF8String(output);
        return;
    }
    Locale locale = read_locale(line, form);
    if (locale.isBogus()) {
        output += REFUSED;
    } else {
        names.localeDisplayName(locale, name).toUTF8String(output);
    }
}

std::vector<Locale> read_list(const std::string &line, Form form) {
    std::vector<Locale> list;
    std::istringstream words(line);
    for (std::string word; words >> word;) {
        list.push_back(read_locale(word, form));
    }
    return list;
}

void append_negotiated(std::string &output, const std::string &line, Form form, const LocaleMatcher &matcher) {
    std::vector<Locale> requests = read_list(line, form);
    Locale::RangeIterator<std::vector<Locale>::iterator> range(requests.begin(), requests.end());
    UErrorCode status = U_ZERO_ERROR;
    LocaleMatcher::Result result = matcher.getBestMatchResult(range, status);
    if (U_FAILURE(status) || result.getDesiredIndex() < 0) {
        output += "none";
        return;
    }
    output += std::to_string(result.getDesiredIndex()) + "\t";
    append_locale(output, *result.getSupportedLocale(), form);
}

// The words of a line.
std::vector<std::string> words_of(const std::string &line) {
    std::istringstream words(line);
    return {std::istream_iterator<std::string>(words), {}};
}

// What is available: as it was given, and the name that ICU has for it.
struct Available {
    std::vector<std::string> given;
    std::vector<std::string> names;
};

Available read_available() {
    Available available;
    std::string first;
    std::getline(std::cin, first);
    available.given = words_of(first);
    for (const Locale &locale : read_list(first, Form::Tag)) {
        available.names.emplace_back(locale.getName());
    }
    return available;
}

void append_place(std::string &output, const Available &available, size_t place) {
    if (place < available.given.size()) {
        output += std::to_string(place) + "\t" + available.given[place];
    } else {
        output += "none";
    }
}

void append_nearest(std::string &output, const std::string &line, const Available &available,
                    const LocaleMatcher &matcher) {
    std::vector<Locale> requests = read_list(line, Form::Tag);
    Locale::RangeIterator<std::vector<Locale>::iterator> range(requests.begin(), requests.end());
    UErrorCode status = U_ZERO_ERROR;
    LocaleMatcher::Result result = matcher.getBestMatchResult(range, status);
    bool is_found = U_SUCCESS(status) && result.getDesiredIndex() >= 0;
    append_place(output, available, is_found ? result.getSupportedIndex() : available.given.size());
}

// ICU reads the header, and refuses some.
void append_served(std::string &output, const std::string &line, const Available &available,
                   const LocaleMatcher &matcher) {
    UErrorCode status = U_ZERO_ERROR;
    const Locale *best = matcher.getBestMatchForListString(line, status);
    if (U_FAILURE(status)) {
        output += REFUSED;
        return;
    }
    const std::vector<std::string> &names = available.names;
    auto found = best == nullptr ? names.end() : std::find(names.begin(), names.end(), best->getName());
    append_place(output, available, found - names.begin());
}

void append_distance(std::string &output, const std::string &line, const LocaleMatcher &matcher) {
    std::vector<Locale> pair = read_list(line, Form::Tag);
    UErrorCode status = U_ZERO_ERROR;
    double match = pair.size() == 2 ? matcher.internalMatch(pair[0], pair[1], status) : 0;
    // a part of one is that the two are spelled otherwise
    output += match > 0 && U_SUCCESS(status) ? std::to_string(int(std::floor(100 - 100 * match + 1e-6))) : "far";
}

// With ICU's own threshold and demotion; none is chosen where none is near.
LocaleMatcher matcher_of(const std::string &available, UErrorCode &status) {
    LocaleMatcher::Builder builder;
    builder.setSupportedLocalesFromListString(available);
    builder.setNoDefaultLocale();
    return builder.build(status);
}

LocaleMatcher matcher_of(const Available &available, UErrorCode &status) {
    std::string list;
    for (const std::string &given : available.given) {
        list += (list.empty() ? "" : ",") + given;
    }
    return matcher_of(list, status);
}

LocaleMatcher make_matcher(Form form, UErrorCode &status) {
    std::string first;
    std::getline(std::cin, first);
    std::vector<Locale> available = read_list(first, form);
    LocaleMatcher::Builder builder;
    builder.setSupportedLocales(available.begin(), available.end());
    builder.setNoDefaultLocale();
    return builder.build(status);
}

// Writes the answer of each line of the input.
template <typename Append>
void answer_lines(Append append) {
    std::string line;
    std::string output;
    while (std::getline(std::cin, line)) {
        append(output, line);
        output += '\n';
        if (output.size() >= 1 << 16) {
            std::fwrite(output.data(), 1, output.size(), stdout);
            output.clear();
        }
    }
    std::fwrite(output.data(), 1, output.size(), stdout);
}

std::string text_of(const UResourceBundle *row, UErrorCode &status) {
    int32_t length = 0;
    const UChar *text = ures_getString(row, &length, &status);
    std::string bytes;
    if (U_SUCCESS(status)) {
        UnicodeString(text, length).toUTF8String(bytes);
    }
    return bytes;
}

// Writes each row of a table of texts: `kind`, the key and the text.
void write_rows(const char *kind, UResourceBundle *table) {
    int32_t count = ures_getSize(table);
    for (int32_t place = 0; place < count; place++) {
        UErrorCode status = U_ZERO_ERROR;
        UResourceBundle *row = ures_getByIndex(table, place, nullptr, &status);
        std::string text = text_of(row, status);
        if (U_SUCCESS(status)) {
            std::printf("%s\t%s\t%s\n", kind, ures_getKey(row), text.c_str());
        }
        ures_close(row);
    }
}

int write_member_rows(const char *package, const char *locale, const char *member, const char *kind) {
    UErrorCode status = U_ZERO_ERROR;
    UResourceBundle *bundle = ures_open(package, locale, &status);
    UResourceBundle *table = ures_getByKey(bundle, member, nullptr, &status);
    if (U_SUCCESS(status)) {
        write_rows(kind, table);
    }
    ures_close(table);
    ures_close(bundle);
    return U_SUCCESS(status) ? 0 : 2;
}

int write_likely() {
    UErrorCode status = U_ZERO_ERROR;
    UResourceBundle *table = ures_openDirect(nullptr, "likelySubtags", &status);
    write_rows("likely", table);
    ures_close(table);
    return U_SUCCESS(status) ? 0 : 2;
}

int write_names(const char *locale) {
    return write_member_rows(U_ICUDATA_NAME "-lang", locale, "Languages", "language") +
           write_member_rows(U_ICUDATA_NAME "-lang", locale, "Scripts", "script") +
           write_member_rows(U_ICUDATA_NAME "-region", locale, "Countries", "region");
}

int write_versions() {
    UErrorCode status = U_ZERO_ERROR;
    UVersionInfo version;
    char text[U_MAX_VERSION_STRING_LENGTH];
    ulocdata_getCLDRVersion(version, &status);
    u_versionToString(version, text);
    std::printf("ICU4C %s with CLDR %s\n", U_ICU_VERSION, text);
    return U_SUCCESS(status) ? 0 : 2;
}

int usage() {
    std::fprintf(stderr, "usage: icu [own] COMMAND [LOCALE]\n");
    return 2;
}

// Answers lines by the commands that change an identifier.
int transform(const std::string &command, Form form) {
    struct Calls {
        const char *command;
        Transform of_tag;
        OwnTransform own;
    };
    static const Calls calls[] = {
        {"maximize", &Locale::addLikelySubtags, uloc_addLikelySubtags},
        {"minimize", &Locale::minimizeSubtags, uloc_minimizeSubtags},
    };
    for (const Calls &call : calls) {
        if (command == call.command) {
            answer_lines([&call, form](std::string &output, const std::string &line) {
                if (form == Form::Own) {
                    append_own(output, line.c_str(), call.own);
                } else {
                    append_transformed(output, line, call.of_tag);
                }
            });
            return 0;
        }
    }
    return usage();
}

int answer(const std::string &command, const char *locale, Form form) {
    UErrorCode status = U_ZERO_ERROR;
    if (command == "canonicalize") {
        answer_lines([form](std::string &output, const std::string &line) {
            if (form == Form::Own) {
                append_locale(output, Locale::createCanonical(line.c_str()), form);
            } else {
                append_transformed(output, line, &Locale::canonicalize);
            }
        });
    } else if (command == "direction") {
        answer_lines([form](std::string &output, const std::string &line) { append_direction(output, line, form); });
    } else if (command == "negotiate") {
        LocaleMatcher matcher = make_matcher(form, status);
        answer_lines([&matcher, form](std::string &output, const std::string &line) {
            append_negotiated(output, line, form, matcher);
        });
    } else if (command == "nearest" || command == "serve") {
        Available available = read_available();
        LocaleMatcher matcher = matcher_of(available, status);
        auto append = command == "serve" ? append_served : append_nearest;
        answer_lines([&](std::string &output, const std::string &line) { append(output, line, available, matcher); });
    } else if (command == "distance") {
        LocaleMatcher matcher = matcher_of("en", status);
        answer_lines([&](std::string &output, const std::string &line) { append_distance(output, line, matcher); });
    } else if (command == "name") {
        LocaleDisplayNames *names = LocaleDisplayNames::createInstance(Locale(locale), ULDN_DIALECT_NAMES);
        answer_lines([names, form](std::string &output, const std::string &line) {
            append_name(output, line, form, *names);
        });
        delete names;
    } else {
        return transform(command, form);
    }
    return U_SUCCESS(status) ? 0 : 2;
}

} // namespace

int main(int count, char **words) {
    std::ios::sync_with_stdio(false);
    std::vector<std::string> said(words + 1, words + count);
    Form form = Form::Tag;
    if (!said.empty() && said[0] == "own") {
        form = Form::Own;
        said.erase(said.begin());
    }
    if (said.empty()) {
        return usage();
    }
    const char *locale = said.size() > 1 ? said[1].c_str() : "en";
    if (said[0] == "likely") {
        return write_likely();
    }
    if (said[0] == "names") {
        return write_names(locale);
    }
    if (said[0] == "versions") {
        return write_versions();
    }
    return answer(said[0], locale, form);
}

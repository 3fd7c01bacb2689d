// Tables for C++ that are closed where they go out of scope, over include/icu_locale.h, and a first run of them:
//     c++ -std=c++17 -Iout/c examples/tables.cpp out/c/libicu_locale.a && ./a.out
#include "icu_locale.h"

#include <iostream>
#include <optional>
#include <string>
#include <string_view>

struct Tables : icu_locale {
    explicit Tables(std::string_view json) : icu_locale{nullptr} {
        number = icu_locale_open(bytes(json), json.size(), this);
    }
    ~Tables() { icu_locale_close(this); }
    Tables(const Tables &) = delete;
    Tables &operator=(const Tables &) = delete;

    // The program's line, or nothing where the call gives no answer; `number` then says why.
    std::optional<std::string> answer(std::string_view command, std::string_view line) {
        std::string out(64, '\0');
        std::size_t written = 0;
        do {
            out.resize(written > out.size() ? written : out.size());
            number = icu_locale_answer(this, bytes(command), command.size(), bytes(line), line.size(),
                                       reinterpret_cast<std::uint8_t *>(out.data()), out.size(), &written);
        } while (number == ICU_LOCALE_ROOM);
        if (number != ICU_LOCALE_ACCEPTED) return std::nullopt;
        out.resize(written);
        return out;
    }

    std::int32_t number;

private:
    static const std::uint8_t *bytes(std::string_view text) {
        return reinterpret_cast<const std::uint8_t *>(text.empty() ? "" : text.data());
    }
};

int main() {
    Tables tables(R"({"likely_language":{"und":["en","Latn","US"],"language":{"zh":["Hans","CN"]}},
                      "likely_script_region":{}})");
    if (auto answer = tables.answer("maximize", "zh")) std::cout << *answer << '\n';
    std::cout << (tables.answer("maximize", "en-") ? "accepted" : "refused") << '\n';
}

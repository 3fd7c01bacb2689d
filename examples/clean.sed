# Makes texts that icu_locale_stream posix reads of the lines of a log: tr -d '\r' < LOG | sed -f examples/clean.sed
# It takes no line away.

# spaces before and after
s/^[[:space:]]*//
s/[[:space:]]*$//

# the root of all locales
s/^root$/und/

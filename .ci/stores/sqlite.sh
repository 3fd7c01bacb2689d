# The extension of SQLite, which `run` sources.

install_sqlite() {
    make -C "$work/top/bindings/sqlite" ICU_LOCALE="$library" LOCALE_DATA="$work/data" DESTDIR="$work/sqlite" LIBDIR=/lib install
    cp "$top/tools/script.sh" "$work/top/tools"
    same sqlite3_modiculocale_init "$(nm -D --defined-only "$work/sqlite/lib/mod_icu_locale.so" | sed 's/.* //')"
}

# The same as the library answers, for each line, and keys that stay.
same_in_sqlite() {
    same '0|0|1' "$(sqlite3 -batch 2>&1 << ROWS
.load $work/sqlite/lib/mod_icu_locale
CREATE TABLE lines(line TEXT, form TEXT, key TEXT);
.separator |
.import $work/lines/answers lines
SELECT sum(locale_canonical(line) <> form), sum(locale_key(line) <> key), count(*) > 1000 FROM lines;
ROWS
    )"
}

# Nothing notices that the data changed, but a check of the index; and then REINDEX makes it right.
other_data() {
    make -B -C "$work/top/bindings/sqlite" ICU_LOCALE="$library" LOCALE_DATA="$work/other" NAMES="$work/data" DESTDIR="$work/sqlite" \
        LIBDIR=/other install
    local file="$work/sqlite/file"
    sqlite3 "$file" '.load '"$work/sqlite/lib/mod_icu_locale" "CREATE TABLE texts(tag TEXT); CREATE INDEX one ON texts(locale_key(tag));
        INSERT INTO texts VALUES ('nds-DE')"
    same "$(printf '%s\n' cldr"$(cat "$work/other/version")" 'row 1 missing from index one' ok nds-DE)" "$(sqlite3 "$file" '.load '"$work/sqlite/other/mod_icu_locale" \
        'SELECT icu_locale_data_version()' 'PRAGMA integrity_check' 'REINDEX one' 'PRAGMA integrity_check' \
        "SELECT tag FROM texts WHERE locale_key(tag) = 'de'")"
}

# Each request for memory is refused in turn.
memory_of_sqlite() {
    local folder="$work/top/bindings/sqlite"
    objcopy --redefine-sym malloc=tried_malloc --redefine-sym realloc=tried_realloc "$library/libicu_locale.a" "$work/refusing.a"
    cc -O1 -g -shared -fPIC -w -I"$library" -DNAMES="\"$work/small\"" -DDATA_VERSION='""' \
        -DTABLES="\"$work/small/tables.json\"" -DSUPPLEMENT="\"$work/small/supplement.json\"" "$folder/mod_icu_locale.c" "$folder/../stores/base.S" "$work/refusing.a" -lz \
        -Wl,-z,nodelete -o "$work/sqlite/mod_icu_locale.so"
    cc -O1 -g -rdynamic -Wall -Wextra -Werror "$here/memory_sqlite.c" -lsqlite3 -o "$work/sqlite/memory"
    "$work/sqlite/memory" "$work/sqlite/mod_icu_locale.so"
}

sqlite_under_valgrind() {
    cd "$work/sqlite/lib"
    { valgrind --quiet --error-exitcode=9 --leak-check=full --show-leak-kinds=definite --errors-for-leak-kinds=definite \
        sqlite3 -batch < "$top/bindings/sqlite/tests/shell.sql" 2>&1 || [ $? = 1 ]; } | diff "$top/bindings/sqlite/tests/shell.expected" -
}

try_sqlite() {
    command -v sqlite3 > /dev/null || { lacks sqlite 'sqlite3, which Debian'"'"'s package sqlite3 has'; return; }
    [ -f /usr/include/sqlite3ext.h ] || { lacks sqlite 'Debian package libsqlite3-dev'; return; }
    tried 'sqlite: it is built and installed' install_sqlite
    tried 'sqlite: its tests' "$work/top/bindings/sqlite/test"
    tried 'sqlite: the same answers' same_in_sqlite
    tried 'sqlite: other data' other_data
    tried 'sqlite: memory' memory_of_sqlite
    if command -v valgrind > /dev/null; then
        tried 'sqlite: under Valgrind' sqlite_under_valgrind
    else
        lacks 'sqlite: under Valgrind' 'Debian package valgrind'
    fi
}

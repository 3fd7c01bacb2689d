# The extension of PostgreSQL, which `run` sources. The server's files are copied, so that modules are installed there.

# sql DATABASE TEXT: what a statement answers; its errors are answers too
sql() {
    "${ordinary[@]}" "$bin/psql" -XAtq -h "$work" "$1" -c "$2" 2>&1 || true
}

# gives WANTED DATABASE TEXT
gives() {
    same "$1" "$(sql "$2" "$3")"
}

# at_server NAME WORD..: runs a tool of the server as the ordinary user
at_server() {
    (cd "$work/run" && "${ordinary[@]}" "$bin/$1" "${@:2}")
}

start_server() {
    at_server pg_ctl -w -D "$work/run/$1" -l "$work/run/server.log" -o "-k $work -c listen_addresses= ${2:-}" start
    echo "cd '$work/run' && ${ordinary[*]} '$bin/pg_ctl' -m immediate -D '$work/run/$1' stop" > "$work/postgresql.stop"
}

stop_server() {
    at_server pg_ctl -w -m fast -D "$work/run/$1" stop
    rm -f "$work/postgresql.stop"
}

install_postgresql() {
    local make=(make -C "$work/top/bindings/postgresql" ICU_LOCALE="$library" NAMES="$work/data" PG_CONFIG="$config" DESTDIR="$work/root")
    mkdir -p "$work/root$libraries" "$work/root$share" "$work/root$programs" "$work/run"
    cp -a "$programs/." "$work/root$programs"
    tar -C "$libraries" --exclude=bitcode -cf - . | tar -C "$work/root$libraries" -xf -
    cp -a "$share/." "$work/root$share"
    [ "$(id -u)" != 0 ] || chown -R nobody "$work/run"
    chmod 777 "$work" # for the socket
    "${make[@]}" LOCALE_DATA="$work/data" install
    "${make[@]}" LOCALE_DATA="$work/other" UPDATES="$version" install
    ! nm -D --defined-only "$work/root$libraries/icu_locale-$version.so" | grep -vE ' (_PG_init|Pg_magic_func|pg_(finfo_pg_)?icu_locale_[a-z_]*)$'
}

regress() {
    local regress="$libraries/pgxs/src/test/regress/pg_regress"
    PG_REGRESS_SOCK_DIR="$work" "${ordinary[@]}" "$regress" --bindir="$bin" --inputdir="$work/top/bindings/postgresql" \
        --outputdir="$work/run" --temp-instance="$work/run/regress" --encoding=UTF8 --no-locale \
        $(sed -n 's/^REGRESS = //p' "$top/bindings/postgresql/Makefile") \
        || { cat "$work/run/regression.diffs"; return 1; }
}

started() {
    at_server initdb -D "$work/run/cluster" --no-locale -E UTF8 -A trust
    start_server cluster
    sql postgres 'SELECT 1'
}

# Who owns only a database makes the extension in it, and may not do more by it.
trusted() {
    sql postgres 'CREATE ROLE owner LOGIN' && sql postgres 'CREATE DATABASE owned OWNER owner'
    gives he owned 'SET SESSION AUTHORIZATION owner; CREATE EXTENSION icu_locale; SELECT locale_key($$iw$$)'
    sql postgres 'CREATE DATABASE updated OWNER owner'
    gives de updated "SET SESSION AUTHORIZATION owner; CREATE EXTENSION icu_locale; CREATE TABLE tags AS SELECT 'nds' AS tag;
        CREATE INDEX ON tags (locale_key(tag)); ALTER EXTENSION icu_locale UPDATE TO '${version}test';
        SELECT locale_key(tag) FROM tags"
}

# The same as the library answers, for each line, and keys that stay.
same_answers() {
    sql owned 'CREATE TABLE lines (line text, form text, key text)'
    tr '|' '\t' < "$work/lines/answers" | sql owned '\copy lines FROM pstdin'
    gives t owned 'SELECT count(*) > 1000 FROM lines'
    gives 0 owned 'SELECT count(*) FROM lines WHERE locale_canonical(line) <> form OR locale_key(line) <> key'
    gives 0 owned 'SELECT count(*) FROM lines WHERE locale_key(locale_key(line)) <> locale_key(line)
        OR locale_key(locale_maximal(line)) <> locale_key(line) OR line::locale::text <> locale_key(line)'
}

# Answers are ASCII but names, which come in the encoding of the database.
encodings() {
    local encoding
    for encoding in latin1 euc_jp sql_ascii; do
        sql postgres "CREATE DATABASE in_$encoding ENCODING '$encoding' TEMPLATE template0"
        gives he "in_$encoding" 'CREATE EXTENSION icu_locale; SELECT locale_key($$iw$$)'
    done
    gives d6737465 in_latin1 "SET client_encoding = 'LATIN1'; SELECT encode(substr(locale_name('de-AT', 'de')::bytea, 1, 4), 'hex')"
    sql in_latin1 "SET client_encoding = UTF8; SELECT locale_name('ja', 'ja')" | grep 'has no equivalent in encoding "LATIN1"'
    gives 日本語 in_euc_jp "SET client_encoding = UTF8; SELECT locale_name('ja', 'ja')"
    gives c396 in_sql_ascii "SELECT encode(substr(locale_name('de-AT', 'de')::bytea, 1, 2), 'hex')"
    sql in_sql_ascii "SELECT locale_key(E'\\xff')" | grep 'invalid locale identifier'
}

# A dump has texts, which the server that restores reads by its own data; binary copies too.
dump_and_restore() {
    sql postgres 'CREATE DATABASE before' && sql postgres 'CREATE DATABASE after'
    sql before "CREATE EXTENSION icu_locale; CREATE TABLE texts (tag locale_id, typed locale,
        key text GENERATED ALWAYS AS (locale_key(tag)) STORED); CREATE UNIQUE INDEX one ON texts (locale_key(tag));
        INSERT INTO texts VALUES ('nds-DE', 'nds'), ('zh_Hant_TW', 'zh-Hant-TW')"
    sql after "CREATE EXTENSION icu_locale VERSION '${version}test'"
    at_server pg_dump -h "$work" before | at_server psql -Xq -v ON_ERROR_STOP=1 -h "$work" after
    gives 'nds|nds|nds-DE' before "SELECT key, typed, tag FROM texts WHERE locale_key(tag) = 'nds'"
    gives 'de|de|nds-DE' after "SELECT key, typed, tag FROM texts WHERE locale_key(tag) = 'de'"
    sql before "COPY texts (typed) TO STDOUT (FORMAT binary)" > "$work/run/binary"
    sql after "CREATE TABLE typed (typed locale)" && sql after '\copy typed FROM pstdin (FORMAT binary)' < "$work/run/binary"
    gives 'de zh-TW' after "SELECT string_agg(typed::text, ' ' ORDER BY typed) FROM typed"
}

# A list of more than was in the dump: an index that meets keys by the new data fails loudly, and the rows are there.
keys_that_meet() {
    sql before "INSERT INTO texts VALUES ('de', 'de')"
    sql postgres 'CREATE DATABASE met' && sql met "CREATE EXTENSION icu_locale VERSION '${version}test'"
    at_server pg_dump -h "$work" before | at_server psql -Xq -h "$work" met 2>&1 | grep 'could not create unique index'
    gives 3 met 'SELECT count(*) FROM texts'
}

# Where the folder of names is not there, it is told.
no_names() {
    mv "$work/data" "$work/moved"
    sql owned "SELECT locale_name('de', 'en')" | grep "could not read the names of locales in \"$work/data\": No such file"
    mv "$work/moved" "$work/data"
    gives German owned "SELECT locale_name('de', 'en')"
}

# Without its module calls fail, and rows are read.
no_module() {
    mv "$work/root$libraries/icu_locale-$version.so" "$work/moved"
    gives nds-DE before "SELECT tag FROM texts WHERE typed::text = 'nds'"
    sql before "SELECT locale_key('de')" | grep "could not access file \"\$libdir/icu_locale-$version\": No such file"
    mv "$work/moved" "$work/root$libraries/icu_locale-$version.so"
}

# Each request of the library for memory is refused in turn: the error is 53200, and the answer is right afterwards.
memory() {
    local folder="$work/top/bindings/postgresql"
    objcopy --redefine-sym malloc=tried_malloc --redefine-sym realloc=tried_realloc "$library/libicu_locale.a" "$work/refusing.a"
    cc -shared -fPIC -O1 -w -I"$("$config" --includedir-server)" -I"$library" -DNAMES="\"$work/small\"" -DDATA_VERSION='""' \
        -DTABLES="\"$work/small/tables.json\"" -DSUPPLEMENT="\"$work/small/supplement.json\"" "$here/memory_postgresql.c" \
        "$folder"/{icu_locale,kept}.c "$folder/../stores/base.S" "$work/refusing.a" -lz -Wl,-Bsymbolic -o "$work/run/refusing.so"
    sed "s|MODULE|$work/run/refusing|" "$here/memory.sql" > "$work/run/memory.sql"
    at_server psql -XAtq -v ON_ERROR_STOP=1 -h "$work" -f "$work/run/memory.sql" owned > "$work/run/memory.out"
    cat "$work/run/memory.out"
    same "$(cut -d'|' -f1,3,4 "$here/memory.expected")" "$(cut -d'|' -f1,3,4 "$work/run/memory.out")"
}

# Each backend has what the postmaster has read.
preloaded() {
    stop_server cluster
    start_server cluster "-c shared_preload_libraries=icu_locale-$version"
    gives he owned "SELECT locale_key('iw')"
    stop_server cluster
}

# A server of one process under Valgrind, over the cluster that is stopped.
under_valgrind() {
    printf '%s\n' "SELECT locale_key(t), locale_chain(t), locale_direction(t), locale_maximal(t) FROM unnest('{iw,en-x-a,zh_tw}'::text[]) t;" \
        "SELECT locale_name('de-AT', 'en'), locale_name('iw', 'de-CH'), locale_distance('en-AU', 'en-GB');" \
        "SELECT locale_serve('de-CH', '{en,de_AT}'), locale_serve('fr', '{en,de}'), locale_serve_place('de', '{en,de}');" \
        "SELECT length(locale_canonical('en-x' || repeat('-abc', 16000))), is_locale('en-USA'), 'ZH_hant_TW'::locale;" \
        "SELECT locale_key('english');" "SELECT locale_name('de', 'tlh');" "SELECT locale_serve('de', '{en,\"de fr\"}');" > "$work/run/single.sql"
    "${ordinary[@]}" valgrind --quiet --error-exitcode=9 --leak-check=no -- "$bin/postgres" --single -D "$work/run/cluster" owned \
        < "$work/run/single.sql" > "$work/run/single.out" 2>&1
    cat "$work/run/single.out"
    grep -q 'locale = "zh-TW"' "$work/run/single.out"
    ! grep -q '^==' "$work/run/single.out"
}

# A cluster moves to another one of the same version, if the module is there.
upgraded() {
    local without="$work/without"
    at_server initdb -D "$work/run/upgraded" --no-locale -E UTF8 -A trust
    mkdir "$without" && cp -a "$work/root/." "$without" && rm "$without$libraries/icu_locale-$version.so"
    (cd "$work/run" && ! "${ordinary[@]}" "$without$programs/pg_upgrade" --check -b "$bin" -B "$without$programs" \
        -d "$work/run/cluster" -D "$work/run/upgraded" -s "$work") | grep 'fatal\|missing'
    (cd "$work/run" && "${ordinary[@]}" "$bin/pg_upgrade" -b "$bin" -B "$bin" -d "$work/run/cluster" -D "$work/run/upgraded" -s "$work")
    start_server upgraded
    gives 'nds|nds' before "SELECT key, typed FROM texts WHERE locale_key(tag) = 'nds'"
    stop_server upgraded
}

# Where the server is; not where a package is missing.
set_server() {
    config=/usr/lib/postgresql/15/bin/pg_config
    [ -x /usr/lib/postgresql/15/bin/postgres ] && [ -f /usr/include/postgresql/15/server/postgres.h ] || return
    version="cldr$(cat "$work/data/version")"
    programs="$("$config" --bindir)" libraries="$("$config" --pkglibdir)" share="$("$config" --sharedir)"
    bin="$work/root$programs"
}

try_postgresql() {
    set_server || { lacks postgresql 'Debian package postgresql-15, or no postgresql-server-dev-15'; return; }
    tried 'postgresql: two versions are built and installed' install_postgresql
    tried 'postgresql: its tests' regress
    local it
    for it in started trusted same_answers encodings dump_and_restore keys_that_meet no_names no_module memory preloaded; do
        tried "postgresql: ${it//_/ }" "$it"
    done
    if command -v valgrind > /dev/null; then
        tried 'postgresql: under Valgrind' under_valgrind
    else
        lacks 'postgresql: under Valgrind' 'Debian package valgrind'
    fi
    tried 'postgresql: upgraded' upgraded
}

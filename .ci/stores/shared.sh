# What `run` and bench/stores share: a folder of their own, in which everything is built. A script sources this file at the
# top of the repository.

top="$(pwd)" here="$(pwd)/.ci/stores"
library="$(realpath -m "${ICU_LOCALE_FOLDER:-out/c}")"
common=/usr/share/unicode/cldr/common
failed=0 missing=0
[ "$(id -u)" = 0 ] && ordinary=(setpriv --reuid=nobody --regid=nogroup --clear-groups env HOME=/nonexistent) || ordinary=()

# lacks WHAT WORDS..: says what is not run, and why
lacks() {
    echo "stores: $1: not run: there is no ${*:2}"
    missing=1
}

# tried WHAT COMMAND..: runs a command, which ends where a part of it fails, and shows what it says only then
tried() {
    local what="$1" begun="$SECONDS" status=0
    shift
    set +e
    (set -e; "$@") > "$work/said" 2>&1
    status=$?
    set -e
    if [ "$status" = 0 ]; then
        echo "stores: $what: as it should be ($((SECONDS - begun)) s)"
    else
        echo "stores: $what: not as it should be"
        tail -n 60 "$work/said"
        failed=1
    fi
}

# same WANTED GIVEN: whether two texts are one
same() {
    [ "$1" = "$2" ] || { printf 'wanted: %s\ngiven:  %s\n' "$1" "$2"; return 1; }
}

[ -f "$library/libicu_locale.a" ] || { lacks all "$library/libicu_locale.a, which make c leaves"; exit 77; }
[ -d "$common" ] || { lacks all 'Debian package unicode-cldr-core'; exit 77; }
command -v cc > /dev/null || { lacks all 'cc, which Debian'"'"'s package gcc has'; exit 77; }
[ -f /usr/include/zlib.h ] || { lacks all 'Debian package zlib1g-dev'; exit 77; }
work="$(mktemp -d)"
trap 'stop_servers || true; rm -rf "$work"' EXIT
stop_servers() { for it in "$work"/*.stop; do [ ! -f "$it" ] || sh "$it" > /dev/null 2>&1 || true; done; }
chmod 755 "$work"

# The data, with a version of it that is made up, where nds is de; what is built, in a copy; lines with their answers.
if [ -f out/data/version ]; then cp -r out/data "$work/data"; else tools/package-data "$work/data"; fi
mkdir -p "$work/other" "$work/top/tools" "$work/top/bindings" "$work/lines"
gzip -dc "$work/data/base-and-supplement.gz" | sed 's/"language_len3":{/&"nds":"de",/' | gzip > "$work/other/base-and-supplement.gz"
echo "$(cat "$work/data/version")test" > "$work/other/version"
gzip -dc "$work/data/base-and-supplement.gz" | sed 1,2d | tr -d '\n' > "$work/tables.json"
gzip -dc "$work/data/base-and-supplement.gz" | sed -n 1,2p | tr -d '\n' > "$work/supplement.json"
# Small data, where each refusal of memory opens tables anew.
tools/package-data --cldr tools/small-cldr/common --notice README.md "$work/small"
gzip -dc "$work/small/base-and-supplement.gz" | sed 1,2d | tr -d '\n' > "$work/small/tables.json"
gzip -dc "$work/small/base-and-supplement.gz" | sed -n 1,2p | tr -d '\n' > "$work/small/supplement.json"
cp -r bindings/postgresql bindings/stores bindings/sqlite "$work/top/bindings"
find "$work/top" \( -name '*.o' -o -name '*.so' -o -name '*.json' -o -name 'icu_locale--*' \) -delete
cp tools/script.py "$work/top/tools"
cp -r examples/edge "$work/edge"
bench/compare/identifiers "$common" 20000 | LC_ALL=C sort -u | grep -v '"' > "$work/lines/all"
cc -D_GNU_SOURCE -O1 -I"$library" "$top/.ci/c/lines.c" "$library/libicu_locale.a" -o "$work/lines.program"
# answers WORD: what the library answers to each line, without its mark, by a command after `locales`
answers() {
    { "$work/lines.program" "$work/tables.json" "locales $1" "$work/supplement.json" || [ $? = 1 ]; } | sed 's/\t[MU]$//'
}
answers canonicalize < "$work/lines/all" | paste -d'|' "$work/lines/all" - | grep -v '|?' > "$work/lines/canonical"
cut -d'|' -f2 "$work/lines/canonical" | answers minimize | answers canonicalize | answers minimize > "$work/lines/key"
answers canonicalize < "$work/lines/key" | answers minimize | diff - "$work/lines/key" # two turns are enough
paste -d'|' "$work/lines/canonical" "$work/lines/key" > "$work/lines/answers"

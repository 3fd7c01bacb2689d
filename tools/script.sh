# What the shell scripts of this repository share. A script sources this file and then says how many words it takes; it
# is no script itself.

script="$(realpath --relative-to="$(dirname "${BASH_SOURCE[0]}")/.." "$0")"

# stop WHY: one line on standard error, and status 2
stop() {
    printf '%s: %s\n' "$script" "$1" >&2
    exit 2
}

# words LEAST MOST WORD..: prints the comment at the head of the script where the first word is --help, and stops where
# there are fewer words or more, or one that begins with a dash
words() {
    local least="$1" most="$2" word
    shift 2
    if [ "${1:-}" = --help ] || [ "${1:-}" = -h ]; then
        awk 'NR > 1 { if (!/^#/) exit; sub(/^# ?/, ""); print }' "$0"
        exit 0
    fi
    for word in "$@"; do
        case "$word" in -*) stop "$word is no word of it; --help says which are" ;; esac
    done
    [ "$#" -ge "$least" ] || stop "a word is missing; --help says which"
    [ "$#" -le "$most" ] || stop "there are more words than it takes; --help says which"
}

# whole_number WORD: stops where the word is no number above 0
whole_number() {
    [[ "$1" =~ ^[1-9][0-9]*$ ]] || stop "$1 is no number of lines or rows"
}

# is_program PATH: whether a file is icu_locale_cli, which says how it is used where it is given no words
is_program() {
    [ -f "$1" ] && [ -x "$1" ] && [ "$(timeout 10 "$1" < /dev/null 2>&1 | head -n 1)" = 'usage: icu_locale_cli COMMAND [json]' ]
}

# the_program PATH: stops where the file is not there, or is another program
the_program() {
    [ -e "$1" ] || stop "there is no $1; make builds the program"
    is_program "$1" || stop "$1 is not icu_locale_cli"
}

# needs COMMAND PACKAGE: stops where a command is not there
needs() {
    command -v "$1" > /dev/null || stop "there is no $1, which Debian's package $2 has"
}

# needs_rattle: stops where there is no rt
needs_rattle() {
    command -v rt > /dev/null || stop 'there is no rt, the command of the Rattle kit'
}

# a_command WORD..: stops where the words are no command of the program
a_command() {
    local given="$*"
    [ "${!#}" != json ] || set -- "${@:1:$#-1}"
    case "${1:-} $#" in
        'maximize 1' | 'minimize 1' | 'minimize-script 1' | 'canonicalize 1' | 'direction 1' | 'settled 1' | 'negotiate 1') ;;
        'name 3') ;;
        *) stop "'$given' is no command of icu_locale_cli" ;;
    esac
}

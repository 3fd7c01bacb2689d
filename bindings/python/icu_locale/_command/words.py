"""The words of `icu-locale`: which commands there are, what each takes, and their completion in bash."""
import argparse
from typing import Any, Dict, List, NamedTuple, NoReturn, Sequence

from .._answers import SYNTAXES
from .._calls import version
from .._switcher import LARGEST

NAME = "icu-locale"


class Stopped(Exception):
    """What ends the command at once. It is told in one line, and the status is 2."""


class Command(NamedTuple):
    """A command: what it answers, the words of an example, what that prints, and what it takes."""

    about: str
    words: str
    prints: str
    takes: str = "IDENTIFIER"


COMMANDS: Dict[str, Command] = {
    "canonicalize": Command("The canonical form of each locale identifier.", "iw", "he"),
    "maximize": Command("Each identifier with its likely script and region.", "zh-TW", "zh-Hant-TW"),
    "minimize": Command("The shortest identifier with the same likely script and region.", "zh-Hant-TW", "zh-TW"),
    "parts": Command("The parts of each identifier, one a line.", "de-AT", "language: de\nregion: AT"),
    "validate": Command("Which parts of each identifier CLDR does not list, or deprecates; `valid` where there are none.",
                        "de-DD", "region DD deprecated"),
    "name": Command("What each identifier is called in a language, or each code of a kind.", "--in en de-AT",
                    "Austrian German"),
    "direction": Command("Which way a text runs: ltr, rtl, or none where that is not known.", "ar", "rtl"),
    "chain": Command("The locales that a loader asks, one after another.", "en-AU", "en-AU en-001 en und"),
    "serve": Command("What a reader is served by a header Accept-Language, or none where nothing is near enough.",
                     "--available en,de,fr 'de-CH, fr;q=0.5'", "de", "HEADER"),
    "resolved": Command("The locale that formats for a reader: what is served, with the reader's region and extensions.",
                        "--available en,de,fr 'de-CH-u-nu-latn fr'", "de-CH-u-nu-latn", "REQUESTS"),
    "menu": Command("The rows of a menu of languages: identifier, own name, and name in a language, in the order of the last.",
                    "--in de en de fr", "de\tDeutsch\tDeutsch\nen\tEnglish\tEnglisch\nfr\tfrançais\tFranzösisch"),
    "regions": Command("The regions that have a name in a language, each with it, in the order of the names.", "--in de", "", ""),
    "version": Command("The version of the package, and where its data of CLDR is.", "", "", ""),
}
# The commands whose calls take a syntax, and those that name something in a language.
WITH_SYNTAX = ("canonicalize", "maximize", "minimize", "parts", "validate", "name", "direction", "chain")
WITH_NAMES = ("name", "menu", "regions")
# Those that are asked nothing but options.
WITHOUT_TEXTS = ("regions", "version")
# What may be named alone.
KINDS = ("language", "script", "region", "variant")
# Those that serve a reader.
WITH_READERS = ("serve", "resolved")
SHELLS = ("bash",)
DEFAULT_SYNTAX = "locales"

HELP = f"""\
usage: {NAME} COMMAND [OPTION ..] [IDENTIFIER ..]

Answers questions about locale identifiers, as zh-Hant-TW, over the data of CLDR in the package. Without an identifier,
each line of standard input is one.

commands:
{{commands}}

`{NAME} COMMAND --help` has the options of a command and an example.

  --help             print this
  --version          print the version of the package
  --completion bash  print what completes the words in bash: source <({NAME} --completion bash)

status: 0; 1 if a line was refused, which standard error tells; 2 if a word is wrong, or if data is missing or damaged
example: {NAME} maximize zh-TW
"""
COMPLETION = f"""\
# Completes the words of {NAME} in bash: source <({NAME} --completion bash)
_icu_locale() {{{{
    local words word="${{{{COMP_WORDS[COMP_CWORD]}}}}"
    case "$COMP_CWORD ${{{{COMP_WORDS[COMP_CWORD - 1]}}}} ${{{{COMP_WORDS[1]}}}}" in
        "1 "*) words="{{commands}}" ;;
        *" --syntax "*) words="{{syntaxes}}" ;;
        *" --kind "*) words="{{kinds}}" ;;
        *" --completion "*) words="{{shells}}" ;;
{{cases}}
        *) words="" ;;
    esac
    COMPREPLY=($(compgen -W "$words" -- "$word"))
}}}}
complete -F _icu_locale {NAME}
"""


class Words(argparse.ArgumentParser):
    """The words of a command: a wrong one stops it, and it is told which there are."""

    def error(self, message: str) -> NoReturn:
        raise Stopped(f"{message}; {self.prog} has {' '.join(options_of(self))}")


def options_of(parser: argparse.ArgumentParser) -> List[str]:
    """The options that a parser reads, by their long names."""
    return [word for action in parser._actions for word in action.option_strings if word.startswith("--")]


def above_zero(text: str) -> int:
    """A number of a column, counted from 1."""
    number = int(text)
    if number < 1:
        raise ValueError(text)
    return number


def limit(text: str) -> int:
    """A threshold or a demotion."""
    number = int(text)
    if not 0 <= number <= LARGEST:
        raise ValueError(text)
    return number


# What a refusal by argparse calls them.
above_zero.__name__, limit.__name__ = "number above 0", f"number from 0 to {LARGEST}"


def parser_of(name: str) -> Words:
    """The parser of a command's words."""
    command = COMMANDS[name]
    parser = Words(f"{NAME} {name}", description=command.about, allow_abbrev=False, epilog=example_of(name),
                   formatter_class=argparse.RawDescriptionHelpFormatter)
    if name == "version":
        parser.add_argument("--json", dest="form", action="store_const", const="json", help="write JSON")
        return parser
    if name not in WITHOUT_TEXTS:
        parser.add_argument("texts", metavar=command.takes, nargs="*", help="without one, each line of standard input")
    if name in WITH_NAMES:
        parser.add_argument("--in", dest="language", metavar="LOCALE", required=True, help="the language of the names")
    if name == "name":
        parser.add_argument("--kind", choices=KINDS, help="take each text for a code of this kind, as US for a region")
    if name in WITH_SYNTAX:
        parser.add_argument("--syntax", choices=list(SYNTAXES), default=DEFAULT_SYNTAX,
                            help="how a text is read: as a locale identifier, a tag of BCP 47, or a POSIX name too")
    if name == "minimize":
        parser.add_argument("--favor-script", action="store_true", help="keep the script rather than the region")
    if name in WITH_READERS:
        add_matching(parser)
    if name == "serve":
        parser.add_argument("--default", metavar="IDENTIFIER", help="what is served where nothing is near enough")
    add_forms(parser, has_columns=name not in ("menu", "regions"))
    return parser


def add_matching(parser: Words) -> None:
    """The options that say what may be served, and what is near enough."""
    parser.add_argument("--available", metavar="LIST", required=True, help="what may be served, as en,de,fr")
    parser.add_argument("--threshold", metavar="N", type=limit, help="the distance that is too far; 50 without")
    parser.add_argument("--demotion", metavar="N", type=limit,
                        help="what each wish after the first counts more; 5 without, and by 0 the nearest of all is served")
    parser.add_argument("--favor-script", action="store_true",
                        help="let a difference of languages count a quarter, and so scripts more")
    parser.add_argument("--or-first", action="store_true", help="serve the first of LIST where nothing is near enough")


def add_forms(parser: Words, has_columns: bool) -> None:
    """The options that say what is read and written."""
    forms = parser.add_mutually_exclusive_group()

    def add(option: str, about: str) -> None:
        forms.add_argument(option, dest="form", action="store_const", const=option[2:], help=about)

    add("--json", "write a line of JSON for each: its input, and its answer or refusal")
    add("--tsv", "write a line for each: its input, its answer and its status, ok or the refusal, with tabs between")
    if has_columns:
        add("--csv", "read CSV from standard input, and write it with the answers in one column")
        add("--tsv-input", "the same with tabs between the columns, and no quotation marks")
        parser.add_argument("--column", metavar="N", type=above_zero, help="which column is asked and answered; 1 without")
        parser.add_argument("--header", action="store_true", help="the first row is a header, and is kept")


def example_of(name: str) -> str:
    """The example at the end of a command's help."""
    command = COMMANDS[name]
    lines = [f"  {line}" for line in command.prints.split("\n") if line]
    return "\n".join([f"example: {NAME} {name} {command.words}".rstrip(), *(["which prints", *lines] if lines else [])])


def help_text() -> str:
    """What `--help` prints."""
    width = max(map(len, COMMANDS))
    return HELP.format(commands="\n".join(f"  {name:{width}}  {command.about}" for name, command in COMMANDS.items()))


def completion() -> str:
    """What completes the words in bash."""
    cases = "\n".join(f'        *" {name}") words="{" ".join(options_of(parser_of(name)))}" ;;' for name in COMMANDS)
    return COMPLETION.format(commands=" ".join([*COMMANDS, "--help", "--version", "--completion"]), cases=cases,
                             syntaxes=" ".join(SYNTAXES), kinds=" ".join(KINDS), shells=" ".join(SHELLS))


def about_itself(words: Sequence[str]) -> str:
    """What is printed where no command is named, if the words ask for something."""
    if words[:1] in (["--help"], ["-h"]):
        return help_text()
    if list(words) == ["--version"]:
        return f"{NAME} {version()}\n"
    if words[:1] == ["--completion"]:
        if list(words[1:]) != ["bash"]:
            raise Stopped(f"--completion is there for {' '.join(SHELLS)}, as in {NAME} --completion bash")
        return completion()
    wrong = f"{words[0]} is no command" if words else "no command is named"
    raise Stopped(f"{wrong}; there are {' '.join(COMMANDS)}")


def read(words: Sequence[str]) -> Any:
    """What the words of a command ask for. The first is one of `COMMANDS`."""
    parser, asked = parser_of(words[0]), list(words[1:])
    end = asked.index("--") if "--" in asked else len(asked)
    chosen, wrong = parser.parse_known_intermixed_args(asked[:end])
    if words[0] in WITHOUT_TEXTS:
        wrong += asked[end:]
    else:
        chosen.texts += asked[end + 1:]  # which may begin as options do
    if wrong:
        parser.error(f"{wrong[0]} is no word of it")
    chosen.command = words[0]
    is_table = chosen.form in ("csv", "tsv-input")
    if not is_table and (getattr(chosen, "column", None) or getattr(chosen, "header", False)):
        parser.error("--column and --header go with --csv or --tsv-input alone")
    if getattr(chosen, "kind", None) and chosen.syntax != DEFAULT_SYNTAX:
        parser.error(f"--syntax {chosen.syntax} goes with identifiers, and --kind {chosen.kind} with codes")
    if is_table and chosen.texts:
        parser.error(f"--{chosen.form} reads standard input, and {chosen.texts[0]} is one word too many")
    return chosen

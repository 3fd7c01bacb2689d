"""Sets of exemplar characters, of the elements `exemplarCharacters` (UTS #35 Part 2, section 3; Part 1, 5.3.3)."""
import re

MARKERS = {None: "main", "auxiliary": "auxiliary", "punctuation": "punctuation", "numbers": "numbers",
           "index": "index"}
# A space, an escape by its number, an escaped character, one that is a sign of the syntax, or any other.
TOKEN = re.compile(
    r"\s+|\\u([0-9A-Fa-f]{4})|\\U([0-9A-Fa-f]{8})|\\x([0-9A-Fa-f]{2})|\\([^uUxNpP])|([\[\]{}^&$-])|(.)", re.DOTALL
)


class NoSet(Exception):
    """A text is no set of this syntax: characters, ranges of characters, and texts in braces."""


def tokens(text):
    """Each character of a set's text, and whether it is a sign of the syntax; white space is none."""
    position = 0
    while position < len(text):
        found = TOKEN.match(text, position)
        if found is None:
            raise NoSet(f"`{text[position:position + 6]}` is no character")
        position = found.end()
        number = found[1] or found[2] or found[3]
        if number:
            yield chr(int(number, 16)), False
        elif found[5]:
            yield found[5], True
        elif found[4] or found[6]:
            yield found[4] or found[6], False


def read_set(text):
    """The characters of a set, as numbers, and its texts of several characters."""
    found = list(tokens(text))
    if found[:1] != [("[", True)] or found[-1:] != [("]", True)]:
        raise NoSet("it does not stand in brackets")
    characters, strings, rest = set(), set(), found[1:-1]
    while rest:
        if rest[0] == ("{", True):
            rest = take_string(rest, characters, strings)
        else:
            rest = take_range(rest, characters)
    return characters, strings


def take_string(rest, characters, strings):
    """Takes a text in braces; one of one character is that character."""
    if ("}", True) not in rest:
        raise NoSet("a brace is not closed")
    end = rest.index(("}", True))
    if any(is_sign for _, is_sign in rest[1:end]):
        raise NoSet("a sign stands in braces")
    string = "".join(character for character, _ in rest[1:end])
    if len(string) == 1:
        characters.add(ord(string))
    else:
        strings.add(string)
    return rest[end + 1:]


def take_range(rest, characters):
    """Takes a character, or a range of them."""
    is_range = rest[1:2] == [("-", True)]
    ends = [rest[0], rest[2]] if is_range and len(rest) > 2 else [rest[0]]
    if any(is_sign for _, is_sign in ends) or is_range and len(ends) < 2:
        raise NoSet("a sign stands for no character, range or text")
    characters.update(range(ord(ends[0][0]), ord(ends[-1][0]) + 1))
    return rest[3:] if is_range else rest[1:]


def ranges(characters):
    """The inversion list of characters: where each run of them begins, and where it has ended."""
    bounds = []
    for character in sorted(characters):
        if bounds and bounds[-1] == character:
            bounds[-1] = character + 1
        else:
            bounds += [character, character + 1]
    return bounds


def exemplar_rows(document):
    """The sets in a file."""
    for element in document.iterfind("characters/exemplarCharacters"):
        yield ("exemplars", element.get("type") or "main"), element


def add_exemplars(table, locale, resolved, account):
    """Puts the sets of a locale into the table of exemplar sets."""
    for (_, kind), text in sorted(resolved.items()):
        if kind not in MARKERS.values():
            account.note(f"{locale}: exemplar sets of a kind that no table has", kind)
            continue
        try:
            characters, strings = read_set(text)
        except NoSet as fault:
            account.note(f"{locale}: exemplar sets that cannot be read", f"{kind}: {fault}")
            continue
        row = {"ranges": ranges(characters), "strings": sorted(strings)}
        table.setdefault(kind, {})[str(locale)] = row

"""How the parts of a name are put together: `localePattern` and `localeSeparator` (UTS #35 Part 2, section 1.1)."""
import re

ELEMENTS = {"localePattern": "pattern", "localeSeparator": "separator"}
PLACE = re.compile(r"\{([01])\}")


def pattern_rows(document):
    """The patterns in a file."""
    for element in document.iterfind("localeDisplayNames/localeDisplayPattern/*"):
        if element.tag in ELEMENTS:
            yield (element.tag,), element


def items(text):
    """A pattern as literals and the numbers of places; two apostrophes are one, and one quotes up to the next."""
    found = [""]
    for part in re.split(r"(''|'[^']*'|\{[01]\})", text):
        if place := PLACE.fullmatch(part):
            found += [int(place[1]), ""]
        else:
            found[-1] += "'" if part == "''" else part.strip("'") if part.startswith("'") else part
    return [item for item in found if item != ""]


def essentials(resolved, locale, account):
    """The patterns of a locale, or None where CLDR has not both."""
    if set(resolved) != {(name,) for name in ELEMENTS}:
        account.note("names without a pattern and a separator", str(locale))
        return None
    return {ELEMENTS[name]: items(text) for (name,), text in sorted(resolved.items())}

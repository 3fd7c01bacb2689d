"""What CLDR calls languages, scripts, regions and variants alone, by its files of a language and of those that it inherits
from. It shares nothing with `cldr-tables`."""
import re

from .listed import parsed

# The elements of each kind, and the subtags that there may be: an element may also be of a locale.
ELEMENTS = {"language": "languages/language", "script": "scripts/script", "region": "territories/territory",
            "variant": "variants/variant"}
FORMS = {"language": "[a-z]{2,3}", "script": "[A-Z][a-z]{3}", "region": "[A-Z]{2}|[0-9]{3}",
         "variant": "[A-Za-z0-9]{5,8}|[0-9][A-Za-z0-9]{3}"}
FIT, INHERITED = (None, "approved", "contributed"), "↑↑↑"


def names(kind, locale):
    """The name of each subtag of a kind in a locale that inherits from those with fewer subtags alone."""
    parts, found = locale.split("-"), {}
    for file in ["root", *("_".join(parts[:count + 1]) for count in range(len(parts)))]:
        for row in parsed(f"main/{file}.xml").iterfind(f"localeDisplayNames/{ELEMENTS[kind]}"):
            is_plain = row.get("alt") is None and row.get("menu") is None and row.get("draft") in FIT
            if is_plain and row.text != INHERITED and re.fullmatch(FORMS[kind], row.get("type")):
                found[spelled(kind, row.get("type"))] = row.text
    return found


def spelled(kind, code):
    return code.lower() if kind == "variant" else code

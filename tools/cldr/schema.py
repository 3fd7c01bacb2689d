"""The JSON Schemas of tables and of supplements, and what they cannot say."""
import json
import math
from pathlib import Path

DOCS = Path(__file__).resolve().parents[2] / "docs"
PACKAGE = "python3-jsonschema"
DEEPEST = 127


def validator(what):
    """Whether a value fits the schema of what is named, as a function; None where Debian's package is not installed."""
    try:
        from jsonschema import Draft202012Validator
    except ImportError:
        return None
    schema = json.loads((DOCS / f"{what}.schema.json").read_text(encoding="utf-8"))
    Draft202012Validator.check_schema(schema)
    return Draft202012Validator(schema).is_valid


class NotWhole(Exception):
    """A number is not spelled as a whole one."""


def refuse(spelled):
    raise NotWhole(spelled)


def whole(spelled):
    return refuse(spelled) if spelled == "-0" else int(spelled)


def is_spelled_whole(text):
    """Each number of a JSON text is spelled as a whole one."""
    try:
        json.loads(text, parse_float=refuse, parse_int=whole)
    except NotWhole:
        return False
    return True


def inner(value):
    """What is in an array, or after the names of an object, its names too."""
    return [*value, *value.values()] if isinstance(value, dict) else value if isinstance(value, list) else []


def depth(value):
    """How deep arrays and objects are in each other."""
    return max((depth(held) for held in inner(value)), default=0) + isinstance(value, (dict, list))


def is_plain(value):
    """No half of a surrogate pair, and no number past the range of a double."""
    if isinstance(value, str):
        return not any("\ud800" <= character <= "\udfff" for character in value)
    return value not in (math.inf, -math.inf) and all(map(is_plain, inner(value)))


def is_read_as_json(value):
    """A value that Python reads from a text is one that the program reads: neither too deep, nor past its bounds."""
    return depth(value) <= DEEPEST and is_plain(value)


def is_inversion_list(bounds):
    """Bounds that rise strictly and are even in number."""
    return len(bounds) % 2 == 0 and all(low < high for low, high in zip(bounds, bounds[1:]))


def exemplar_bounds(value):
    """The bounds of each exemplar set of tables that fit the schema."""
    return [row["ranges"] for rows in value.get("exemplars", {}).values() for row in rows.values()]


def unsaid(text, value):
    """Why a text that fits its schema is refused all the same, of the reasons that the schema lists, or None."""
    if not is_spelled_whole(text):
        return "a number that is not spelled whole"
    if not all(is_inversion_list(bounds) for bounds in exemplar_bounds(value)):
        return "bounds that are no inversion list"
    return None

"""What is listed: CLDR's codes and types, each with its status, and the registry of RFC 5646 as language-tags has it."""
import re

from cldr import listed

from .programs import CRATES

ARRAYS = {"LANGUAGES": "language", "SCRIPTS": "script", "REGIONS": "region"}
# Subtags for private use, which the registry lists as ranges.
PRIVATE = {"language": [("qaa", "qtz")], "script": [("Qaaa", "Qabx")], "region": [("QM", "QZ"), ("XA", "XZ")]}


def replaced():
    """The codes that CLDR has another one for, with the numbers of its regions."""
    alias = listed.parsed("supplemental/supplementalMetadata.xml").find(".//alias")
    numbers = listed.parsed("supplemental/supplementalData.xml").iter("territoryCodes")
    return {row.get("type") for row in alias} | {row.get("numeric") for row in numbers}


def spelled(row):
    """The subtag of a row of letters."""
    return "".join(re.findall("'(.)'", row)).strip()


class Registry:
    """The subtags of the registry, and the prefixes of variants and of extended languages."""

    def __init__(self):
        path = sorted(CRATES.glob("language-tags-[0-9]*"))[-1] / "src" / "iana_registry.rs"
        arrays = dict(re.findall(r"pub const (\w+): \[[^;]*; \d+\] = \[(.*?)\];", path.read_text(), re.DOTALL))
        rows = {kind: re.findall(r"new\(\[(.*?)\]\)", arrays[name]) for name, kind in ARRAYS.items()}
        self.codes = {kind: set(map(spelled, found)) for kind, found in rows.items()}
        self.prefixes = dict(re.findall(r'"(\w+)",\s*"([^"]*)"', arrays["VARIANTS"]))
        self.codes["variant"] = set(self.prefixes)
        rows = re.findall(r"new\(\[(.*?)\]\),\s*\"([^\"]*)\"", arrays["EXTLANGS"])
        self.extended = {spelled(row): prefix for row, prefix in rows}

    def has(self, kind, code):
        """Whether a subtag is registered, for private use too."""
        ranges = [(low, high) for low, high in PRIVATE.get(kind, ()) if len(low) == len(code)]
        return code in self.codes.get(kind, ()) or any(low <= code <= high for low, high in ranges)

    def has_prefix(self, tag):
        """Whether each variant of a tag comes with one of its prefixes."""
        variants = [self.prefixes[subtag] for subtag in tag.split("-") if subtag in self.prefixes]
        return all(any(tag.startswith(prefix) for prefix in prefixes.split(" ")) for prefixes in variants)

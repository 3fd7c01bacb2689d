"""What a value at a key of `u` or `t` means by CLDR's files of types (UTS #35 Part 1, sections 3.6.4 and 3.7.1), for tests.

It shares nothing with `values.py`.
"""
import string

SIGNS = set(string.ascii_lowercase + string.digits)


def is_value(text):
    """Pieces of three to eight letters or digits."""
    return all(3 <= len(piece) <= 8 and set(piece) <= SIGNS for piece in text.split("-"))


class Type:
    """A type as CLDR has it."""

    def __init__(self, element):
        self.name = element.attrib["name"].lower()
        self.is_in_use = element.attrib.get("deprecated", "false") == "false"
        self.preferred = element.attrib.get("preferred", "").lower()
        self.aliases = element.attrib.get("alias", "").lower().split()


class ValueTypes:
    """The types of each key, by the key's extension and name."""

    def __init__(self, common):
        self.types = {}
        for path in sorted((common.folder / "bcp47").glob("*.xml")):
            for key in common.document(f"bcp47/{path.name}").iter("key"):
                name = key.attrib["name"].lower()
                if name not in ("rg", "sd"):
                    types = self.types.setdefault((key.attrib.get("extension", "u"), name), [])
                    types += [Type(row) for row in key.iter("type")]

    def spelled(self):
        """Each name of a type and each alias that is a value: the extension, the key and the value."""
        for (extension, key), types in self.types.items():
            names = dict.fromkeys(name for row in types for name in [row.name, *row.aliases])
            yield from ((extension, key, name) for name in names if is_value(name))

    def meant(self, extension, key, value):
        """The type that a value means: the one in use of that name; what is preferred to it; the one whose alias it is."""
        types = self.types[extension, key]
        named = [row for row in types if row.name == value]
        preferred = [row.preferred for row in named if row.preferred]
        if preferred:
            return self.meant(extension, key, preferred[0])
        if any(row.is_in_use for row in named):
            return value
        aliased = [row.name for row in types if value in row.aliases and row.name != value]
        return self.meant(extension, key, aliased[0]) if aliased else value

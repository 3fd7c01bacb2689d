"""What parts of extensions are called (UTS #35 Part 2, section 1.2, Locale Display Name Algorithm), by the keys and types of
BCP 47.

CLDR writes these names at keys and types of an older form, as `calendar` and `gregorian`; `common/bcp47` says which those
are. A name of the value `true` is at the empty text in `u`, where that value is not written, and at `true` in `t`.
Currencies, subdivisions, time zones and codes for reordering have names of their own: a currency its symbol, or its code; a
zone the region whose only zone or primary zone it is, or else its city, as the region format puts it.
"""
import re

from .names import PLAIN, name_rows
from .patterns import items
from .values import types_by_key

VALUE = re.compile(r"[a-z0-9]{3,8}(-[a-z0-9]{3,8})*")
KEY = re.compile(r"[a-z0-9]{2}")
TRANSFORM = "t"
TRUE, YES = "true", "yes"
# What may be left out, and the keys whose values are then raw.
LARGE = {"subdivisions": ("rg", "sd"), "zones": ("tz",)}
NO_PATTERN = "names of extensions: locales without a pattern for a key and its value"
NO_KEY = "names of extensions: names of types at keys that are none of BCP 47"


def extension_rows(document):
    """The names in a file: of what, and the element."""
    for key in document.iterfind("localeDisplayNames/keys/key[@type]"):
        yield from plain(("key", key.get("type")), key)
    for row in document.iterfind("localeDisplayNames/types/type"):
        yield from plain(("type", row.get("key"), row.get("type")), row)
    for pattern in document.iterfind("localeDisplayNames/localeDisplayPattern/localeKeyTypePattern"):
        yield from plain(("pattern",), pattern)
    for currency in document.iterfind("numbers/currencies/currency"):
        for symbol in currency.iterfind("symbol"):
            yield from plain(("currency", currency.get("type")), symbol)
    for zone in document.iterfind("dates/timeZoneNames/zone"):
        for city in zone.iterfind("exemplarCity"):
            yield from plain(("city", zone.get("type")), city)
    for pattern in document.iterfind("dates/timeZoneNames/regionFormat"):
        if pattern.get("type") is None:
            yield from plain(("zone pattern",), pattern)
    for row in document.iterfind("localeDisplayNames/subdivisions/subdivision"):
        yield from plain(("subdivision", row.get("type")), row)


def plain(key, element):
    """A row, where the element has the plain form of a name."""
    if element.get("alt") is None:
        yield key, element


class Keys:
    """The keys of BCP 47 of both extensions, with their older names and those of their types."""

    def __init__(self, common, account):
        self.older, self.types = {}, {}
        for name in common.names("bcp47"):
            for key in common.document(f"bcp47/{name}").iter("key"):
                self.older[key.get("name").lower()] = (key.get("alias") or key.get("name")).split()[0]
        for (_, key), rows in types_by_key(common, account).items():
            named = self.types.setdefault(key, {})
            for row in rows:
                named[row.get("name").lower()] = (row.get("alias") or "").split()
        self.newer = {older: key for key, older in self.older.items()}


class ExtensionNames:
    """What parts of extensions are called in the languages of locales."""

    def __init__(self, common, inheritance, account, without=()):
        self.inheritance, self.account = inheritance, account
        self.keys = Keys(common, account)
        self.primary = {zone.text for zone in common.document("supplemental/metaZones.xml").iter("primaryZone")}
        self.left_out = {key for name in without for key in LARGE[name]}

    def of(self, locale):
        """The table of a locale, or None where it has no pattern."""
        rows = self.inheritance.resolved(locale, extension_rows, self.account)
        rows |= self.inheritance.resolved_in("subdivisions", locale, extension_rows, self.account)
        if ("pattern",) not in rows:
            self.account.note(NO_PATTERN, str(locale))
            return None
        names = self.inheritance.resolved(locale, name_rows, self.account)
        regions, scripts = ({subtag: text for (kind, subtag, form), text in names.items() if (kind, form) == (of, PLAIN)}
                            for of in ("territory", "script"))
        return {"pattern": items(rows["pattern",]), "types": self.types(rows), "keys": self.names_of_keys(rows),
                "values": self.values(rows, regions, scripts)}

    def names_of_keys(self, rows):
        """The names of keys, and of the extension `t`."""
        found = {}
        for key in [*self.keys.older, TRANSFORM]:
            name = rows.get(("key", self.keys.older.get(key, key))) or rows.get(("key", key))
            if name:
                found[key] = name
        return dict(sorted(found.items()))

    def types(self, rows):
        """The names of types by key."""
        found = {}
        for key, named in self.keys.types.items():
            for value, older in (named | {TRUE: named.get(TRUE, [])}).items():
                is_empty = value == TRUE and key[1:].isalpha()
                name = self.type_name(rows, key, value, older)
                if name:
                    found.setdefault(key, {})["" if is_empty else value] = name
        for what, key, value in (row for row in rows if row[0] == "type"):
            newer = self.keys.newer.get(key, key)
            if newer not in self.keys.types or not KEY.fullmatch(newer):
                self.account.note(NO_KEY, f"{key} {value}")
            elif VALUE.fullmatch(value):
                found.setdefault(newer, {}).setdefault(value, rows[what, key, value])
        return {key: dict(sorted(names.items())) for key, names in sorted(found.items())}

    def type_name(self, rows, key, value, older):
        """The name of a type, by its key and itself or what they were called before."""
        values = [value, *older[:1], *([YES] if value == TRUE else [])]
        pairs = (("type", one, other) for one in (key, self.keys.older.get(key, key)) for other in values)
        return next((rows[pair] for pair in pairs if pair in rows), None)

    def values(self, rows, regions, scripts):
        """The names of values by key, where types have none."""
        found = {
            "cu": self.currencies(rows),
            "kr": {script.lower(): name for script, name in scripts.items() if len(script) == 4}
                  | {key[2]: name for key, name in rows.items() if key[:2] == ("type", "colReorder")},
            "tz": self.zones(rows, regions),
        }
        found["rg"] = found["sd"] = self.subdivisions(rows, regions)
        return {key: dict(sorted(names.items())) for key, names in sorted(found.items())
                if names and key not in self.left_out}

    def currencies(self, rows):
        """The symbols of currencies, or their codes."""
        return {value: rows.get(("currency", value.upper()), value.upper()) for value in self.keys.types.get("cu", {})}

    def subdivisions(self, rows, regions):
        """The names of subdivisions, and of regions as a whole."""
        found = {key[1].lower(): name for key, name in rows.items() if key[0] == "subdivision"}
        return found | {f"{region.lower()}zzzz": name for region, name in regions.items() if len(region) == 2}

    def zones(self, rows, regions):
        """The names of time zones by the region format."""
        zones = {value: older for value, older in self.keys.types.get("tz", {}).items() if older}
        alone = [value[:2] for value in zones]
        found = {}
        for value, older in zones.items():
            region = regions.get(value[:2].upper())
            city = rows.get(("city", older[0])) or older[0].split("/")[-1].replace("_", " ")
            is_region = region and (older[0] in self.primary or alone.count(value[:2]) == 1)
            found[value] = rows.get(("zone pattern",), "{0}").replace("{0}", region if is_region else city)
        return found

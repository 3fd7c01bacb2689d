"""Likely subtags, canonical forms, directions, names and negotiation of locale identifiers, by the proved library.

>>> from icu_locale import Tables
>>> from icu_locale.example import TABLES
>>> with Tables.from_json(TABLES) as tables:
...     tables.maximize("zh-TW"), tables.direction("ar"), tables.name("it-US", "en")
('zh-Hant-TW', 'rtl', 'Italian (United States)')

What is served to a reader whose browser sends the header Accept-Language, by the match rules of a supplement:

>>> from icu_locale.example import SUPPLEMENT
>>> with Tables.from_json(TABLES, SUPPLEMENT) as tables:
...     tables.serve("fr, zh-TW;q=0.5", ["en", "zh-Hant"])
'zh-Hant'

`Tables.cldr(["en", "de"])` opens CLDR's data, which this package has inside, with the names of those locales.
`from_cldr` makes tables of a folder of CLDR, and `from_json` reads them from a text.

The library libicu_locale.so.0 is looked for where the variable ICU_LOCALE_LIBRARY says, then in this package, then in
out/c of its repository, where `make c` leaves it, and then where the system looks for libraries. It is loaded where it is
first wanted.
"""
from ._answers import CHAINS, Canonical, Chain, Direction, Named, Syntax
from ._calls import version
from ._codes import (CodeStatus, ExemplarSet, Invalid, PartKind, RegionChain, ScriptChain, SubtagKind, VariantChain)
from ._data import cldr_locales, cldr_version
from ._locale import Locale
from ._menu import MenuRow
from ._negotiator import Match, Negotiator
from ._refusals import (Circle, Closed, InvalidLanguage, InvalidList, InvalidSubtag, InvalidText, LineRefused, MemoryRefused,
                        NameMissing, NoCldr, NoCommand, NoFieldFixedPoint, NoFixedPoint, NoJson, NoList,
                        NoSubdivisionFixedPoint, NoTables, NotSettled, NoValueFixedPoint, Refused, TableMissing, TablesShared,
                        Text)
from ._switcher import Headers, Resolved, Switcher
from ._tables import Tables

__all__ = ["Tables", "Locale", "Negotiator", "Switcher", "Match", "Resolved", "MenuRow", "Canonical", "Named", "Direction",
           "Syntax", "Chain", "CHAINS", "Headers", "Text", "Invalid", "PartKind", "CodeStatus", "ScriptChain", "RegionChain",
           "VariantChain", "SubtagKind", "ExemplarSet", "cldr_version", "cldr_locales", "Refused", "Closed",
           "MemoryRefused", "NoJson", "NoTables", "NoCommand", "TableMissing", "NoList", "InvalidList", "NotSettled",
           "TablesShared", "NoCldr", "LineRefused", "InvalidLanguage", "InvalidSubtag", "InvalidText", "NoFixedPoint",
           "NoSubdivisionFixedPoint", "NoValueFixedPoint", "NoFieldFixedPoint", "Circle", "NameMissing"]

__version__ = version()

# What a text or a refusal calls a class is the name that it is imported by.
for _name in __all__:
    if isinstance(globals()[_name], type):
        globals()[_name].__module__ = __name__

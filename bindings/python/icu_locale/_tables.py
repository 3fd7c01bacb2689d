"""Tables: how they are opened, and what they serve a reader."""
from os import PathLike
from typing import Any, Iterable, List, Optional, Tuple, Union, overload

from ._answers import Syntax
from ._codes import Codes
from ._data import Locales, damaged, data_folder, names_of_all, texts_of, texts_of_all
from ._lent import Flat, address_of, view_of
from ._negotiator import Negotiator, Tag, gathered, line_of, listed
from ._refusals import InvalidList, LineRefused, NoJson, NoTables, Text, as_bytes, refuse
from ._switcher import Default, Headers, Resolved, Switcher, option_words

DEBIAN_CLDR = "/usr/share/unicode/cldr/common"


class Tables(Codes):
    """Tables, by `cldr`, `from_cldr` or `from_json`. Any number of threads may use them at once.

    >>> from icu_locale.example import TABLES
    >>> tables = Tables.from_json(TABLES)
    >>> tables.minimize("zh-Hant-TW")
    'zh-TW'
    >>> tables.close()
    >>> tables.minimize("zh-Hant-TW")
    Traceback (most recent call last):
        ...
    icu_locale.Closed: The tables are closed.
    """

    _MADE_BY = "`Tables.cldr`, `Tables.from_cldr` and `Tables.from_json` open tables"

    def _begin(self) -> None:
        super()._begin()
        self._negotiator: Optional[Negotiator] = None

    @classmethod
    def from_json(cls, json: Text, supplement: Optional[Text] = None) -> "Tables":
        """The tables of a JSON text, and their supplement of another one: the parents of locales, the match rules by which a
        reader is served, aliases of values, and which codes are valid.

        >>> Tables.from_json("{")
        Traceback (most recent call last):
            ...
        icu_locale.NoJson: The text is no JSON.
        >>> Tables.from_json('{"colour": 1}')
        Traceback (most recent call last):
            ...
        icu_locale.NoTables: The JSON has not the shape of tables.
        """
        made, text = cls._closed(), as_bytes(json)
        number = made._calls.open(text, len(text), made._root.handle)
        if not number and supplement is not None:
            text = as_bytes(supplement)
            number = made._calls.supplement(made._root.handle, text, len(text))
        if number:
            refuse(number)
        made._is_open = True
        return made

    @classmethod
    def cldr(cls, locales: Locales = ()) -> "Tables":
        """The tables of CLDR's data that this package has inside, with the names of some locales, as ["en", "zh-Hant"],
        and their supplement, by which `serve` and `fallback` go, and which has what parts of extensions are called in these
        locales, but for subdivisions and time zones. The likely tables are settled. The word `all` is every locale, whose
        names are lent from the file that has them. In the place of one that CLDR has no names in comes the first of its
        chain, as `zh-Hant-TW` for `zh-TW`; `cldr_locales` lists them. `NoCldr` is raised where there is none, or no data, or
        a file is damaged, which is named. One locale takes some hundredths of a second.
        """
        is_all = locales == "all"
        texts, names = (texts_of_all(), names_of_all()) if is_all else (texts_of(locales, _cldr_chain), None)
        try:
            made = cls.from_json(*texts)
            if names is not None:
                made.lend_names(names)
            return made
        except (NoJson, NoTables) as fault:
            raise damaged(data_folder(), fault) from None

    @classmethod
    def from_cldr(cls, folder: Union[str, "PathLike[str]"] = DEBIAN_CLDR, locales: Iterable[str] = (), *,
                  settled: bool = True, subdivisions: bool = False, zones: bool = False) -> "Tables":
        """The tables of CLDR's folder `common`, which Debian has in the package unicode-cldr-core, with the names of some
        locales, and their supplement, by which `serve` and `fallback` go, and which has what parts of extensions are called.
        The names of subdivisions and of time zones are large, and are there where `subdivisions` or `zones` is True. What
        keeps the likely tables from being settled is left out, as negotiation wants it, unless `settled` is False.
        It raises `NoCldr` where the folder or a locale is not there. It takes about a second.
        """
        from .cldr.command import json_of, supplement_of
        if isinstance(locales, (str, bytes)):
            raise TypeError("one text is no list of locales")
        asked = list(locales)
        without = [name for name, is_there in (("subdivisions", subdivisions), ("zones", zones)) if not is_there]
        return cls.from_json(json_of(folder, asked, settled), supplement_of(folder, locales=asked, without=without))

    def share(self) -> "Tables":
        """The same tables once more, to be closed apart. They are in memory once.

        >>> from icu_locale.example import TABLES
        >>> with Tables.from_json(TABLES) as tables:
        ...     other = tables.share()
        >>> other.maximize("zh")
        'zh-Hans-CN'
        """
        made = type(self)._closed()
        self._share_with(made)
        made._is_open = True
        return made

    def lend_names(self, names: Flat) -> None:
        """Lends names that lie in the flat form, in place of those lent before: bytes, or a map of a file that is only read.
        Nothing is copied. A name is asked of the tables' own rows first, and then of what is lent. The bytes are looked through
        once, here; they are kept until these tables, and all that is made of them, are collected. Nobody may change the file
        that is mapped. It raises `NoTables` where the bytes have not the form, and `TablesShared` where these tables have been
        shared, or a negotiator or a switcher has them, or a call runs; what was lent before stays then.

        >>> from icu_locale.example import TABLES
        >>> flat = Tables.from_json(TABLES).flat_names()
        >>> tables = Tables.from_json('{"essentials": {"en": {"pattern": [0, " (", 1, ")"], "separator": [0, ", ", 1]}}}')
        >>> tables.name("it-US", "en")
        'it (US)'
        >>> tables.lend_names(flat)
        >>> tables.name("it-US", "en")
        'Italian (United States)'
        >>> tables.lend_names(flat[:-1])
        Traceback (most recent call last):
            ...
        icu_locale.NoTables: The bytes are no names in the flat form.
        """
        view = view_of(names)
        with self._rooted:
            self._negotiator = None
            self._let_go()
            number = self._calls.lend_names(self._root.handle, address_of(view), view.nbytes)
            if not number:
                self._lent = view
        if number == NoTables.number:
            raise NoTables("The bytes are no names in the flat form.")
        if number:
            refuse(number)

    def flat_names(self) -> bytes:
        """The names of the tables themselves, without those that are lent to them, in the flat form, which icu_locale_lend_names
        of icu_locale.h tells. It raises `NoTables` where a key or a text has more than 65,535 bytes.

        >>> from icu_locale.example import TABLES
        >>> Tables.from_json(TABLES).flat_names()[:8]
        b'ICUTEXT1'
        """
        number, flat = self._written(self._calls.flat_names)
        if number == NoTables.number:
            raise NoTables("A key or a text of the names has more than 65,535 bytes.")
        if number:
            refuse(number)
        return flat

    def negotiator(self, available: Iterable[Text], *, syntax: Optional[Syntax] = None) -> Negotiator:
        """What serves a reader one of the identifiers that are available. It holds these tables too: they may be closed.
        `syntax` says how these and the requests are read: as identifiers alone, or with extensions, which have no part in
        what is met.

        >>> from icu_locale.example import TABLES
        >>> tables = Tables.from_json(TABLES)
        >>> tables.negotiator(["en", "zh-Hant"]).negotiate(["zh-TW"])
        Match(request=0, available=1)
        >>> tables.negotiator(["en", "zh Hant"])
        Traceback (most recent call last):
            ...
        icu_locale.InvalidList: what stands at place 1 is no identifier: 'zh Hant'
        >>> negotiator = tables.negotiator(["de", "en-u-hc-h12"], syntax="locales")
        >>> negotiator.negotiate(["fr-x-a", "EN-u-nu-latn"]), negotiator.answer("negotiate", "en")
        (Match(request=1, available=1), '0\\ten-u-hc-h12')
        """
        return self._negotiator_over(listed(available), self._word(syntax))

    def _negotiator_over(self, available: Tuple[Text, ...], word: bytes = b"") -> Negotiator:
        made = Negotiator._closed()
        made._available, made._line, made._word = available, line_of(available), word
        self._share_with(made)
        try:
            made._free.append(made._fresh())
        except InvalidList:
            raise self._list_refusal(available, word) from None
        made._is_open = True
        return made

    def _kept_over(self, available: Tuple[Text, ...]) -> Negotiator:
        """What was last available is kept, so that it is read once. So many identifiers in the same line are the same."""
        kept = self._negotiator
        if kept is None or kept._line != line_of(available) or len(kept.available) != len(available):
            kept = self._negotiator = self._negotiator_over(listed(available))
        return kept

    @overload
    def switcher(self, available: Iterable[Tag], *, threshold: Optional[int] = None, demotion: Optional[int] = None,
                 favor_script: bool = False, or_first: bool = False) -> Switcher[Tag, None]: ...

    @overload
    def switcher(self, available: Iterable[Tag], *, default: Default, threshold: Optional[int] = None,
                 demotion: Optional[int] = None, favor_script: bool = False, or_first: bool = False
                 ) -> Switcher[Tag, Default]: ...

    def switcher(self, available: Iterable[Tag], *, default: Any = None, threshold: Optional[int] = None,
                 demotion: Optional[int] = None, favor_script: bool = False, or_first: bool = False) -> Switcher[Tag, Any]:
        """What serves a reader by the headers Accept-Language of a request. It holds these tables too. What it serves is one
        of the available identifiers as it was handed in, or the default where none is near enough.

        Near enough is a distance below `threshold`, or below 50. Each request after the first counts `demotion` more, or 5;
        by 0 the nearest of all is served. With `favor_script` a difference of languages counts a quarter, so that one of
        scripts weighs more. With `or_first` the first of what is available is served where nothing else is, even if the
        header refuses it.

        >>> from icu_locale.example import SUPPLEMENT, TABLES
        >>> tables = Tables.from_json(TABLES, SUPPLEMENT)
        >>> switcher = tables.switcher(["en", "zh-Hant"])
        >>> switcher.serve("fr, zh-TW;q=0.5"), switcher.serve("fr")
        ('zh-Hant', None)
        >>> tables.switcher(["en", "zh-Hant"], default="en").serve("fr")
        'en'
        >>> tables.switcher(["en", "de"], threshold=8).serve("gsw"), tables.distance("gsw", "de")
        (None, 8)
        >>> tables.switcher(["en", "de"], or_first=True).serve("fr, en;q=0")
        'en'
        """
        options, found = option_words(threshold, demotion, favor_script, or_first), listed(available)
        return Switcher(self._negotiator_over(found), found, default, options)

    @overload
    def serve(self, headers: Headers, available: Iterable[Tag]) -> Optional[Tag]: ...

    @overload
    def serve(self, headers: Headers, available: Iterable[Tag], *, default: Default) -> Union[Tag, Default]: ...

    def serve(self, headers: Headers, available: Iterable[Tag], *, default: object = None) -> object:
        """What is served of the available identifiers, in their own spelling, for the headers Accept-Language of a request:
        one, or several, or None. The default where none is near enough. The tables need match rules, which a supplement has.
        What was last available is kept, so that it is read once.

        >>> from icu_locale.example import SUPPLEMENT, TABLES
        >>> tables = Tables.from_json(TABLES, SUPPLEMENT)
        >>> tables.serve("fr, zh-TW;q=0.5", ["en", "zh_hant"])
        'zh_hant'
        >>> tables.serve(["fr;q=0.1", "de-AT, *;q=0.2"], ["en", "zh_hant"])
        'en'
        >>> tables.serve(None, ["en", "zh_hant"], default="zh_hant")
        'zh_hant'
        >>> Tables.from_json(TABLES).serve("en", ["en"])
        Traceback (most recent call last):
            ...
        icu_locale.TableMissing: The tables leave out `matching`, which is needed: the supplement that has it is missing.
        """
        found = gathered(available)
        return Switcher(self._kept_over(found), found, default).serve(headers)

    @overload
    def nearest(self, requests: Iterable[Text], available: Iterable[Tag]) -> Optional[Tag]: ...

    @overload
    def nearest(self, requests: Iterable[Text], available: Iterable[Tag], *, default: Default) -> Union[Tag, Default]: ...

    def nearest(self, requests: Iterable[Text], available: Iterable[Tag], *, default: object = None) -> object:
        """What is nearest to requests, the most wanted first, of the available identifiers, in their own spelling. The
        default where none is near enough. What was last available is kept, as `serve` does.

        >>> from icu_locale.example import SUPPLEMENT, TABLES
        >>> tables = Tables.from_json(TABLES, SUPPLEMENT)
        >>> tables.nearest(["fr", "en-AU"], ["de", "en", "en-gb"]), tables.nearest(["fr"], ["de"], default="de")
        ('en-gb', 'de')
        """
        found = gathered(available)
        return Switcher(self._kept_over(found), found, default).nearest(requests)

    def close(self) -> None:
        """Lets the tables go; a call that still runs has its answer first. A second call does nothing."""
        self._negotiator = None
        super().close()


def _cldr_chain(locale: str) -> List[str]:
    """The chain of a locale over CLDR's data inside; none where it is refused."""
    with Tables.cldr() as tables:
        try:
            return tables.fallback(locale)
        except LineRefused:
            return []

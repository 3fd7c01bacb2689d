"""Codes: which are valid, their names, lists of them, exemplar characters, and the name of the data. What is wanted stands in
CLDR's files: common/validity, common/bcp47, common/main and common/dtd."""
import json
import unittest

from icu_locale import (Closed, Invalid, InvalidLanguage, InvalidSubtag, InvalidText, Locale, NameMissing, NoCommand, TableMissing,
                        Tables, _codes, _data, cldr_version)
from icu_locale.example import SUPPLEMENT, TABLES

HAS_DATA = any((folder / "base-and-supplement.gz").is_file() for folder in _data.FOLDERS)
# Some rows of validity/*.xml and of bcp47/*.xml.
VALIDITY = json.dumps({"cldr": "41", "validity": {
    "language": {"regular": "de en", "deprecated": "iw"}, "script": {"regular": "Hant Latn", "deprecated": "Qaai"},
    "region": {"regular": "DE US", "deprecated": "DD", "reserved": "QM~N QP~T QV~Z"}, "variant": {"regular": "1996 fonipa"},
    "keywords": {"ca": {"types": {"regular": "buddhist", "deprecated": "islamicc"}}, "hc": {"types": {"regular": "h11~2 h23~4"}}},
    "fields": {"m0": {"types": {"regular": "prprname"}, "kind": "date"}}}})
# An identifier, and what of it is not valid: in VALIDITY, and in all of CLDR.
REPORTS = [
    ("en", []), ("de-Latn-DE-1996", []), ("EN_latn_us", []), ("en-u-ca-buddhist-hc-h23", []), ("de-t-en-m0-prprname", []),
    ("en-x-mine", []), ("de-DD", [("region", "DD", "deprecated", 3, 5)]), ("en_qx", [("region", "QX", "reserved", 3, 5)]),
    ("IW", [("language", "iw", "deprecated", 0, 2)]), ("en-Qaai", [("script", "Qaai", "deprecated", 3, 7)]),
    ("xx-Latm-US", [("language", "xx", "unlisted", 0, 2), ("script", "Latm", "unlisted", 3, 7)]),
    ("de-1996-abcde", [("variant", "abcde", "unlisted", 8, 13)]),
    ("en-u-ca-islamicc-hc-h99", [("keyword", "ca-islamicc", "deprecated", 5, 16), ("keyword", "hc-h99", "unlisted", 17, 23)]),
    ("en-u-attr", [("attribute", "attr", "unlisted", 5, 9)]), ("en-a-b1", [("extension", "a-b1", "unlisted", 3, 7)]),
    ("de-t-en-m0-names", [("field", "m0-names", "unlisted", 8, 16)]),
]
# A call, what it names, in which locale and by which chain, and the name; it is raw where it is None.
NAMES = [
    ("language_name", "de", "en", "light", "German"), ("language_name", "ZH", "en", "long-light", "Mandarin Chinese"),
    ("language_name", "zh", "en", "menu-light", "Chinese, Mandarin"), ("language_name", "en", "de", "tiny", "Englisch"),
    ("script_name", "latn", "de", "light", "Lateinisch"), ("script_name", "Hans", "en", "light", "Simplified"),
    ("script_name", "Xsux", "en", "heavy", "Sumero-Akkadian Cuneiform"), ("script_name", "Xsux", "en", "short-heavy", "S-A Cuneiform"),
    ("script_name", "Qabc", "en", "heavy", None), ("region_name", "us", "en", "light", "United States"),
    ("region_name", "US", "en", "short-light", "US"), ("region_name", "GB", "de", "short-light", "UK"),
    ("region_name", "GB", "de", "short-tiny", "UK"), ("region_name", "419", "de", "light", "Lateinamerika"),
    ("region_name", "US", "en", "tiny", "United States"), ("region_name", "QX", "en", "light", None),
    ("variant_name", "1996", "de", "heavy", "Neue deutsche Rechtschreibung"), ("variant_name", "fonipa", "en", "heavy", "IPA Phonetics"),
    ("variant_name", "abcde", "en", "heavy", None),
]
# A set of a locale, what it has and what it has not.
EXEMPLARS = [
    ("main", "en", "az", "äßA1"), ("main", "de", "aäßz", "éA"), ("auxiliary", "en", "äéÿ", "az"), ("index", "en", "AZ", "aÄ"),
    ("numbers", "de", ",.%‰+09", "ax"), ("punctuation", "de", "„“«»!", "a0"), ("punctuation", "en", "'’†", "«„"),
]


class Small(unittest.TestCase):
    def test_validity(self):
        with Tables.from_json(TABLES, VALIDITY) as tables:
            for text, wanted in REPORTS:
                for each in (text, text.encode(), memoryview(text.encode())):
                    self.assertEqual(tables.validate(each), [Invalid(*part) for part in wanted], text)
                self.assertEqual(tables.is_valid(text), not wanted)
            self.assertEqual(tables.validate(Locale("EN_dd")), [Invalid("region", "DD", "deprecated", 3, 5)])
            self.assertEqual(tables.share().validate("de"), [])

    def test_syntaxes(self):
        with Tables.from_json(TABLES, VALIDITY) as tables:
            self.assertEqual(tables.validate("de_DD", syntax="posix"), [Invalid("region", "DD", "deprecated", 3, 5)])
            # what is no piece of the text has the whole as its place: characters of a str, and bytes of others
            for text, length in (("xx.\xe9@cyrillic", 13), ("xx.\xe9@cyrillic".encode(), 14)):
                self.assertEqual(tables.validate(text, syntax="posix"),
                                 [("language", "xx", "unlisted", 0, 2), ("script", "Cyrl", "unlisted", 0, length)])
            self.assertEqual(tables.validate("de_DD.x_dd", syntax="posix"), [Invalid("region", "DD", "deprecated", 3, 5)])
            self.assertEqual(tables.validate("en_US.UTF-8@latin", syntax="posix"), [])
            self.assertEqual(tables.validate("i-klingon", syntax="bcp47"), [Invalid("language", "tlh", "unlisted", 0, 9)])
            self.assertFalse(tables.is_valid("x-mine", syntax="bcp47"))  # und is not listed here
            self.assertRaises(ValueError, tables.validate, "en", syntax="utf8")
            self.assertRaises(ValueError, tables.is_valid, "en", syntax="utf8")

    def test_no_identifiers(self):
        with Tables.from_json(TABLES, VALIDITY) as tables:
            for text, refusal in [("", InvalidLanguage), ("english", InvalidLanguage), ("en-", InvalidSubtag), (b"\xff", InvalidLanguage),
                                  ("en-Latm1-US", InvalidSubtag), ("\ud800", InvalidLanguage)]:
                with self.assertRaises(refusal) as refused:
                    tables.validate(text)
                self.assertEqual(refused.exception.text, text)
                self.assertFalse(tables.is_valid(text))
            with self.assertRaises(InvalidSubtag) as refused:
                tables.validate("en-Latm1-US")
            self.assertEqual((refused.exception.start, refused.exception.end, refused.exception.subtag), (9, 11, "US"))
            for call in (tables.validate, tables.is_valid, lambda it: tables.region_name(it, "en"), lambda it: tables.listed("regions", it),
                         lambda it: tables.region_name("US", it), lambda it: tables.has_exemplar("main", "en", it),
                         lambda it: tables.has_exemplar("main", it, "a"), lambda it: tables.has_exemplar(it, "en", "a"),
                         lambda it: tables.listed(it, "en")):
                for wrong in (5, None, ["en"]):
                    self.assertRaises(TypeError, call, wrong)

    def test_missing_tables(self):
        with Tables.from_json(TABLES, SUPPLEMENT) as tables:
            for call in (tables.validate, tables.is_valid):
                self.assertRaisesRegex(TableMissing, "`validity`.* supplement", call, "en")
            self.assertRaisesRegex(TableMissing, "set main of the locale de", tables.has_exemplar, "main", "de", "a")
            self.assertRaisesRegex(TableMissing, "set numbers of the locale en", tables.answer, "locales exemplars numbers en", "a")
        tables.close()
        for call in (lambda: tables.validate("en"), lambda: tables.data_name, lambda: tables.has_exemplar("main", "en", "a")):
            self.assertRaises(Closed, call)

    def test_names(self):
        with Tables.from_json(TABLES) as tables:
            self.assertEqual(tables.region_name("us", "en"), ("United States", False))
            self.assertEqual(tables.region_name(b"us", b"EN", "short-light"), ("US", False))
            self.assertEqual(tables.region_name("us", "de"), ("US", True))
            self.assertEqual(tables.script_name("LATN", "en"), ("Latin", False))
            self.assertEqual(tables.variant_name("FONIPA", "en"), ("IPA Phonetics", False))
            self.assertEqual(tables.language_name("it", "en"), ("Italian", False))
            self.assertEqual(tables.language_name("tlh", "en"), ("tlh", True))
            self.assertRaisesRegex(NameMissing, "without the locale 'de', to name 'it' in", tables.language_name, "it", "de")

    def test_wrong_names(self):
        with Tables.from_json(TABLES) as tables:
            for call, wrong, refusal in [(tables.language_name, ("", "de-AT", "Latn", "e"), InvalidLanguage),
                                         (tables.script_name, ("", "US", "Latn-US", "Lat1"), InvalidSubtag),
                                         (tables.region_name, ("", "USA", "Latn", "US-fonipa", " US", b"\xff"), InvalidSubtag),
                                         (tables.variant_name, ("", "US", "abc", "fonipa-1996"), InvalidSubtag)]:
                for each in wrong:
                    with self.assertRaises(refusal) as refused:
                        call(each, "en")
                    self.assertEqual((refused.exception.text, refused.exception.subtag), (each, None))
                for preferences in ("", "e", "en-fonipa", "en en"):
                    self.assertRaisesRegex(NoCommand, "no identifier without variants", call, "US", preferences)
                self.assertRaisesRegex(NoCommand, "is no chain; the chains are .*", call, "US", "en", "short-menu")
            self.assertRaisesRegex(NoCommand, "'heavy' is no chain; .* short-tiny, light", tables.region_name, "US", "en", "heavy")
            self.assertRaisesRegex(NoCommand, "are tiny, light, heavy, short-heavy$", tables.script_name, "Latn", "en", "short-light")

    def test_lists(self):
        with Tables.from_json(TABLES) as tables:
            wanted = {"languages": ["en", "it", "ku"], "scripts": ["Latn"], "regions": ["150", "US"], "variants": ["fonipa"]}
            for kind, subtags in wanted.items():
                self.assertEqual(tables.listed(kind, "en"), subtags)
                self.assertEqual(tables.listed(kind, b"de"), [])
            for locale in ("", "e", "en-", "en-fonipa"):
                self.assertRaisesRegex(NoCommand, "no identifier without variants", tables.listed, "regions", locale)
            self.assertRaisesRegex(NoCommand, "'region' is no kind; the kinds are languages", tables.listed, "region", "en")

    def test_exemplars(self):
        with Tables.from_json(TABLES) as tables:
            for text, wanted in [("a", True), ("z", True), ("ng", True), ("A", False), ("ab", False), ("", False), ("a\n", False),
                                 (b"a", True), ("\xe4", False)]:
                self.assertEqual(tables.has_exemplar("main", "en", text), wanted, text)
            for broken in (b"\xff", "\ud800"):
                with self.assertRaises(InvalidText) as refused:
                    tables.has_exemplar("main", "en", broken)
                self.assertEqual((refused.exception.name, refused.exception.text), ("InvalidText", broken))
            self.assertRaisesRegex(NoCommand, "'best' is no set; the sets are main, auxiliary", tables.has_exemplar, "best", "en", "a")
            self.assertRaisesRegex(NoCommand, "no identifier without variants", tables.has_exemplar, "main", "en-fonipa", "a")

    def test_data_name(self):
        for supplement, wanted in [(VALIDITY, "41"), (SUPPLEMENT, None), ('{"cldr": ""}', ""), ('{"cldr": "4\xe9\\n"}', "4\xe9\n"),
                                   (json.dumps({"cldr": "x" * 1000}), "x" * 1000)]:
            with Tables.from_json(TABLES, supplement) as tables:
                self.assertEqual((tables.data_name, tables.share().data_name, tables.data_name), (wanted,) * 3)
                self.assertEqual(tables.maximize("zh"), "zh-Hans-CN")


@unittest.skipUnless(HAS_DATA, "the package has no data of CLDR inside")
class OfCldr(unittest.TestCase):
    def test_validity(self):
        with Tables.cldr() as tables:
            for text, wanted in REPORTS:
                self.assertEqual(tables.validate(text), [Invalid(*part) for part in wanted], text)
            for text in ("und", "zh-Hant-TW", "en-150", "ca-valencia", "en-u-rg-gbsct-cu-eur", "de-u-kr-latn-digit", "x-mine"):
                self.assertEqual(tables.validate(text, syntax="bcp47"), [], text)

    def test_names(self):
        with Tables.cldr(["en", "de"]) as tables:
            for call, subtag, locale, chain, wanted in NAMES:
                self.assertEqual(getattr(tables, call)(subtag, locale, chain), (wanted or subtag, wanted is None), (call, subtag))

    def test_lists(self):
        with Tables.cldr(["de"]) as tables:
            for kind, some, none in [("languages", ["de", "en", "gsw", "zh"], "tlx"), ("scripts", ["Latn", "Xsux"], "Qabc"),
                                     ("regions", ["419", "DE", "US"], "QX"), ("variants", ["1996", "fonipa"], "abcde")]:
                found = tables.listed(kind, "de")
                self.assertEqual(found, sorted(set(found)))
                self.assertTrue(set(some) < set(found) and none not in found, kind)
                self.assertEqual(tables.listed(kind, "en"), [])

    def test_exemplars(self):
        with Tables.cldr(["en", "de"]) as tables:
            for kind, locale, there, not_there in EXEMPLARS:
                for each in there + not_there:
                    self.assertEqual(tables.has_exemplar(kind, locale, each), each in there, (kind, locale, each))

    def test_data_name(self):
        with Tables.cldr() as tables:
            self.assertEqual(tables.data_name, cldr_version())

    def test_words(self):
        """The chains, sets and kinds that are told are those that there are."""
        with Tables.cldr(["en"]) as tables:
            for chains, call, subtag in ((_codes.CHAINS, tables.language_name, "de"), (_codes.SCRIPT_CHAINS, tables.script_name, "Latn"),
                                         (_codes.REGION_CHAINS, tables.region_name, "US"), (_codes.VARIANT_CHAINS, tables.variant_name, "1996")):
                self.assertEqual([chain for chain in chains if call(subtag, "en", chain).is_raw], [])
            for kind in _codes.EXEMPLAR_SETS:
                self.assertFalse(tables.has_exemplar(kind, "en", ""))


if __name__ == "__main__":
    unittest.main()

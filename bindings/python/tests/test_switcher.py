"""What is served, which the library decides: that all is handed over, and what comes back."""
import json
import os
import unittest

from icu_locale import (InvalidLanguage, InvalidList, InvalidSubtag, LineRefused, NoFieldFixedPoint, NotSettled,
                        NoValueFixedPoint, TableMissing, Tables)
from icu_locale._tables import DEBIAN_CLDR
from icu_locale.example import SUPPLEMENT, TABLES

AVAILABLE = ["en", "de", "AR_eg", "zh_hant", b"sr-Latn"]
# A header or several, and what is served.
SERVED = [
    ("en-GB", "en"), ("de-AT;q=0.5, en;q=0.4", "de"), ("ar", "AR_eg"), ("zh-TW", "zh_hant"), ("zh-CN, de;q=0.1", "de"),
    ("sh", AVAILABLE[4]), ("sr-Latn-x-a", AVAILABLE[4]), ("sr-Cyrl", None), ("zh-CN", None), ("gsw", "de"),
    ("yue", "zh_hant"), ("yue-Hans", None), ("fr, gsw, en;q=0.5", "en"), ("", None), ([], None), (None, None), ([""], None),
    ("de-1996", "de"), ("de-u-co-phonebk, en", "de"), ("de-x-mine", "de"), ("x-mine, i-klingon, de", "de"),
    ("i-enochian, und-x-a, de", "de"), ("i-default", "en"), ("EN-gb-OED", "en"), ("zh-cmn-TW, de", "de"),
    ("zz-zz-zz, *", "en"), ("*", "en"), ("*;q=0", None), ("en;q=0, *;q=0.1", "de"), ("EN;q=0, de;q=0, *", "AR_eg"),
    ("de;q=0, ja;q=0.2", None), ("de;q=x, en", "en"), ("de;q=1.001, en;q=0.1", "en"), ("de;q=nan, en", "en"),
    ("de; q = 0.1, en ; Q=0.2", "en"), ("de;level=1;q=0.1, en;q=0.2", "en"), ("de;q=0.1,,en", "en"), (";q=1, de", "de"),
    ("fr\r\nde", None), ("sh\tabcdefg", None), ("de\0, en", "en"),
    (["fr, en;q=0.1", "de;q=0.2"], "de"), ((b"fr", b"de"), "de"), (iter(["fr", bytearray(b"de")]), "de"),
    (b"\xff, de", "de"), ("\ud800, de", "de"), ("x" * 100000 + ",de", "de"), ("x," * 100000 + "de", None),
]
# By CLDR's own text, of version 41 and later: languageMatch and paradigmLocales in languageInfo.xml.
BY_CLDR = [
    ("no", ["en", "nb"], "nb"), ("nn", ["en", "nb"], "nb"), ("nb", ["en", "no"], "no"), ("da", ["en", "nb"], "nb"),
    ("en-AU", ["en", "en-GB"], "en-GB"), ("en-PR", ["en", "en-GB"], "en"), ("en-AU", ["en", "en-NZ"], "en-NZ"),
    ("es-MX", ["es", "es-419"], "es-419"), ("es-GQ", ["es-419", "es"], "es"), ("pt-AO", ["pt", "pt-PT"], "pt-PT"),
    ("zh-MO", ["zh-Hant", "zh-Hant-HK"], "zh-Hant-HK"), ("yue", ["zh", "zh-Hant"], "zh-Hant"), ("gsw", ["en", "de"], "de"),
    ("lb", ["en", "de"], "de"), ("cs", ["en", "sk"], "sk"), ("sk", ["en", "cs"], "cs"), ("hr", ["en", "bs"], "bs"),
    ("sr", ["en", "sr-Latn"], "sr-Latn"), ("iw, zh-HK;q=0.1", ["en", "he", "zh-Hant"], "he"), ("uk", ["en", "ru"], "ru"),
    ("de", ["gsw"], None), ("ja-Latn", ["ja"], "ja"), ("de", ["nl", "en"], None), ("fr", ["en", "de"], None),
]
NO_RULES = "`matching`, which is needed: the supplement that has it is missing"


class Switchers(unittest.TestCase):
    def setUp(self):
        self.tables = Tables.from_json(TABLES, SUPPLEMENT)
        self.addCleanup(self.tables.close)

    def test_context(self):
        with self.tables.switcher(["en", "de"], default="en") as switcher:
            self.assertEqual(switcher.serve("de"), "de")
            self.assertEqual(repr(switcher), "<Switcher of ['en', 'de'], or else 'en'>")
        self.assertRaises(ValueError, switcher.serve, "de")
        with self.tables.negotiator(["en"]) as negotiator:
            self.assertEqual(repr(negotiator), "<Negotiator of ['en']>")
        self.assertEqual((repr(negotiator), repr(self.tables)), ("<Negotiator of ['en'], closed>", "<Tables>"))

    def test_served(self):
        for available in (AVAILABLE, iter(AVAILABLE)):
            switcher = self.tables.switcher(available)
            self.assertEqual(switcher.available, tuple(AVAILABLE))
        for headers, wanted in SERVED:
            headers = list(headers) if hasattr(headers, "__next__") else headers
            self.assertEqual(switcher.serve(headers), wanted, headers)
            self.assertEqual(self.tables.serve(headers, AVAILABLE), wanted, headers)
        self.assertEqual(self.tables.serve("de", ["en", "DE"]), "DE")
        self.assertEqual(self.tables.serve("en", []), None)
        self.tables.close()
        self.assertEqual(switcher.serve("de"), "de")
        switcher.close()
        switcher.close()
        self.assertRaises(ValueError, switcher.serve, "de")
        self.assertRaises(ValueError, switcher.nearest, ["de"])
        self.assertRaises(ValueError, switcher.resolved, ["de"])
        self.assertRaises(ValueError, self.tables.serve, "de", AVAILABLE)

    def test_one_header_of_several(self):
        switcher = self.tables.switcher(AVAILABLE)
        self.assertEqual(switcher.serve(iter(["fr", bytearray(b"de"), memoryview(b"en")])), "de")
        self.assertEqual(switcher.serve(bytearray(b"de")), "de")

    def test_defaults(self):
        none = object()
        switcher = self.tables.switcher(AVAILABLE, default=none)
        self.assertIs(switcher.serve("fr"), none)
        self.assertIs(switcher.nearest(["fr"]), none)
        self.assertEqual((switcher.serve("de"), switcher.nearest(["de"])), ("de", "de"))
        for headers in (None, "", [], "fr", "*;q=0"):
            self.assertIs(self.tables.serve(headers, AVAILABLE, default=none), none)
            self.assertIs(self.tables.serve(headers, AVAILABLE), None)
        self.assertIs(self.tables.nearest([], AVAILABLE, default=none), none)

    def test_nearest(self):
        switcher = self.tables.switcher(AVAILABLE)
        for requests, wanted in [(["en-GB"], "en"), (["fr", "de-AT"], "de"), ([b"ZH_tw"], "zh_hant"), (["sh"], AVAILABLE[4]),
                                 (["fr", "gsw-u-co-phonebk-x-a"], "de"), (["fr"], None), ([], None), (iter(["de"]), "de")]:
            requests = list(requests)
            self.assertEqual(switcher.nearest(requests), wanted, requests)
            self.assertEqual(self.tables.nearest(iter(requests), AVAILABLE), wanted, requests)
        for faulty in ("", " ", "en ", "e", "en-", "en\n", "en\0", b"\xff", "i-klingon", "zh-cmn", "en-u", "x-a", "sh\tabcdefg"):
            for requests in ([faulty], ["en", faulty], [faulty, "en"]):
                for call in (switcher.nearest, lambda each: self.tables.nearest(each, AVAILABLE)):
                    with self.assertRaises(InvalidList) as told:
                        call(requests)
                    self.assertEqual((told.exception.place, told.exception.identifier), (requests.index(faulty), faulty))
        for wrong in ("en", b"en", 5, [5], None):
            self.assertRaises(TypeError, switcher.nearest, wrong)

    def test_options(self):
        first = {"or_first": True}
        for options, available, requests, wanted in [
                ({"threshold": 8}, ["en", "de"], ["gsw"], None), ({"threshold": 9}, ["en", "de"], ["gsw"], "de"),
                ({"threshold": 54}, ["zh-TW"], ["zh"], None), ({"threshold": 55}, ["zh-TW"], ["zh"], "zh-TW"),
                ({"threshold": 0}, ["en"], ["en"], None), ({"threshold": 65535}, ["ar"], ["en"], "ar"),
                ({}, ["en-GB", "de"], ["en-AU", "de"], "en-GB"), ({"demotion": 0}, ["en-GB", "de"], ["en-AU", "de"], "de"),
                ({"demotion": 2}, ["en-GB", "de"], ["en-AU", "de"], "de"),
                ({"demotion": 3}, ["en-GB", "de"], ["en-AU", "de"], "en-GB"),
                ({"favor_script": True}, ["de"], ["en"], "de"), ({"favor_script": True}, ["zh-TW"], ["zh"], None),
                ({"favor_script": True, "threshold": 5}, ["de"], ["gsw"], None),
                ({"favor_script": True, "threshold": 6}, ["de"], ["gsw"], "de"),
                (first, ["de", "en"], ["fr"], "de"), (first, ["de", "en"], ["en"], "en"), (first, ["de"], [], "de"),
                (first, [], ["de"], None), ({**first, "threshold": 0}, ["de", "en"], ["en"], "de")]:
            switcher = self.tables.switcher(available, **options)
            self.assertEqual(switcher.nearest(requests), wanted, (options, requests))
            self.assertEqual(switcher.serve(", ".join(requests)), wanted, (options, requests))
        self.assertEqual(self.tables.switcher(["de", "en"], or_first=True).serve("*;q=0"), "de")
        self.assertEqual(self.tables.switcher([], or_first=True, default="en").serve("de"), "en")
        for name in ("threshold", "demotion"):
            for wrong, refusal in (("5", TypeError), (5.0, TypeError), (-1, ValueError), (65536, ValueError)):
                self.assertRaises(refusal, self.tables.switcher, ["en"], **{name: wrong})

    def test_resolved(self):
        switcher = self.tables.switcher(["de", "en-GB", b"zh_hant"])
        for requests, wanted in [
                (["de-CH"], (0, "de-CH")), (["en-AU-u-ca-buddhist"], (1, "en-AU-u-ca-buddhist")), (["gsw-CH"], (0, "de-CH")),
                (["zh-TW"], (2, "zh-Hant-TW")), (["fr-x-a", b"DE_1996"], (0, "de-1996")), (["en"], (1, "en-GB")),
                (["fr"], None), ([], None), (iter(["gsw-u-nu-latn"]), (0, "de-u-nu-latn"))]:
            self.assertEqual(switcher.resolved(requests), wanted)
        found = switcher.resolved(["en-AU"])
        self.assertEqual((found.available, found.locale), (1, "en-AU"))
        with self.assertRaises(InvalidList) as told:
            switcher.resolved(["en", "en-"])
        self.assertEqual(told.exception.place, 1)
        for wrong in ("en", 5, [5], None):
            self.assertRaises(TypeError, switcher.resolved, wrong)
        near = self.tables.switcher(["zh_hant", "de"], default="en", threshold=8, or_first=True)
        self.assertEqual((near.resolved(["gsw-CH"]), near.resolved(["de-CH"])), ((0, "zh-Hant"), (1, "de-CH")))
        self.assertIs(self.tables.switcher([], default="en", or_first=True).resolved(["de"]), None)

    def test_refused(self):
        for place, available in enumerate((["e"], ["en", "x-mine"], ["en", "de", "en-"], ["en", "de", "ar", "sr-u-ka-noignore"])):
            for call in (self.tables.switcher, lambda each: self.tables.serve("en", each),
                         lambda each: self.tables.nearest(["en"], each)):
                with self.assertRaises(InvalidList) as told:
                    call(available)
                self.assertEqual(told.exception.place, place)
        for wrong in ("en", 5, None, [5]):
            self.assertRaises(TypeError, self.tables.serve, "en", wrong)
        for wrong in (0, 5, [5], [None]):
            self.assertRaises(TypeError, self.tables.serve, wrong, ["en"])
        unsettled = TABLES.replace('"de": ["Latn", "DE"]', '"de": ["Zzzz", "DE"]')
        tables = Tables.from_json(unsettled, SUPPLEMENT)
        self.assertRaises(NotSettled, tables.negotiator(["en"]).negotiate, ["en"])
        self.assertEqual((tables.serve("en-AU", ["en"]), tables.switcher(["en"]).nearest(["en-AU"])), ("en", "en"))

    def test_what_is_kept(self):
        """What was last available is read once, and another list is another one."""
        self.tables.serve("en", AVAILABLE)
        kept = self.tables._negotiator
        self.tables.nearest(["en"], tuple(AVAILABLE))
        self.assertIs(self.tables._negotiator, kept)
        self.assertEqual(self.tables.serve("de", ["en", "DE"]), "DE")
        self.assertIsNot(self.tables._negotiator, kept)
        for faulty in (["en DE"], ["en", "", "DE"], ["", "en DE"]):
            self.assertRaises(InvalidList, self.tables.serve, "en", faulty)
        changed = [bytearray(b"en"), bytearray(b"ar")]
        self.assertEqual(self.tables.serve("ar", changed), b"ar")
        changed[1][:] = b"de"
        self.assertEqual((self.tables.serve("ar", changed), self.tables.serve("de", changed)), (None, b"de"))
        self.assertEqual((self.tables.serve("de", ["en", "de"]), self.tables.serve("de", [b"en", b"de"])), ("de", b"de"))
        self.assertEqual(self.tables.serve("en", []), None)
        self.assertRaises(InvalidList, self.tables.serve, "en", [""])

    def test_missing_tables(self):
        bare = json.loads(TABLES)
        without_aliases = json.dumps({name: rows for name, rows in bare.items() if name != "aliases"})
        for supplement in (None, "{}", '{"parents": {}}'):
            tables = Tables.from_json(TABLES, supplement)
            for call in (lambda: tables.serve("en", ["en"]), lambda: tables.serve(None, []), lambda: tables.nearest([], []),
                         lambda: tables.distance("en", "de"), lambda: tables.switcher(["en"]).serve("en"),
                         lambda: tables.switcher(["en"], threshold=9).resolved(["en"])):
                with self.assertRaisesRegex(TableMissing, NO_RULES):
                    call()
        for tables in (Tables.from_json(without_aliases, SUPPLEMENT), Tables.from_json("{}", SUPPLEMENT)):
            with self.assertRaises(TableMissing) as told:
                tables.serve("en", ["en"])
            self.assertNotIn(NO_RULES, str(told.exception))
        self.assertEqual(Tables.from_json(without_aliases, SUPPLEMENT).distance("en", "en-GB"), 5)
        with self.assertRaises(TableMissing) as told:
            Tables.from_json("{}", SUPPLEMENT).distance("en", "de")
        self.assertNotIn(NO_RULES, str(told.exception))

    def test_distances(self):
        for desired, supported, wanted in [("en-AU", "en-GB", 3), ("en", b"EN_gb", 5), ("zh", "zh-TW", 54), ("en", "de", 84),
                                           ("de-u-co-phonebk", "de-x-a", 0), ("gsw", "de", 8)]:
            self.assertEqual(self.tables.distance(desired, supported), wanted)
        self.assertEqual(self.tables.distance("i-klingon", "tlh", syntax="bcp47"), 0)
        self.assertEqual(self.tables.distance("en_AU.UTF-8", "en_GB", syntax="posix"), 3)
        for desired, supported in [("", ""), ("e", "de"), ("en", ""), ("en de", ""), ("", "en de"), ("i-klingon", "en")]:
            self.assertRaises(LineRefused, self.tables.distance, desired, supported)
        self.assertRaises(InvalidSubtag, self.tables.distance, "en", "de fr")
        self.assertRaises(ValueError, self.tables.distance, "en", "de", syntax="utf8")
        self.assertRaises(TypeError, self.tables.distance, "en", 5)

    def test_same(self):
        for first, second, wanted in [("sh", "sr_latn", True), ("en", "EN", True), ("en", "en-Latn", False),
                                      (b"sh-u-rg-abcdefg", "sr-Latn-u-rg-xyz", True), ("en-x-a", "en", False)]:
            self.assertIs(self.tables.are_same(first, second), wanted)
        self.assertTrue(self.tables.are_same("i-klingon", "tlh", syntax="bcp47"))
        for first, second in [("e", "en"), ("en", "e"), ("i-klingon", "en")]:
            self.assertRaises(InvalidLanguage, self.tables.are_same, first, second)
        self.assertRaises(ValueError, self.tables.are_same, "en", "en", syntax="utf8")


class Values(unittest.TestCase):
    ALIASES = '{"keywords": {"ca": {"islamicc": "islamic-civil"}, "kb": {"yes": "true"}}, "fields": {"m0": {"names": "prprname"}}}'

    def test_aliases(self):
        for supplement in (self.ALIASES, SUPPLEMENT):
            tables = Tables.from_json(TABLES, supplement)
            for identifier, wanted in [("en-u-ca-islamicc", "en-u-ca-islamic-civil"), ("en-u-kb-yes", "en-u-kb"),
                                       ("en-t-m0-names", "en-t-m0-prprname")]:
                self.assertEqual(tables.canonicalize(identifier), wanted)
                self.assertTrue(tables.are_same(identifier, wanted))

    def test_circles(self):
        circle = {"aaa": "bbb", "bbb": "aaa"}
        tables = Tables.from_json(TABLES, json.dumps({"keywords": {"ca": circle}, "fields": {"m0": circle}}))
        self.assertRaises(NoValueFixedPoint, tables.canonicalize, "en-u-ca-aaa")
        self.assertRaises(NoFieldFixedPoint, tables.canonicalize, "en-t-m0-aaa")
        self.assertRaises(NoValueFixedPoint, tables.are_same, "en", "en-u-ca-bbb")


@unittest.skipUnless(os.path.isdir(DEBIAN_CLDR), "there is no Debian package unicode-cldr-core")
class OfCldr(unittest.TestCase):
    def test_served(self):
        with Tables.from_cldr() as tables:
            served = [(headers, available, tables.serve(headers, available)) for headers, available, _ in BY_CLDR]
            self.assertEqual(served, BY_CLDR)
            self.assertEqual(tables.distance("gsw", "de"), 8)
            self.assertEqual(tables.canonicalize("en-u-ca-islamicc-ks-tertiary"), "en-u-ca-islamic-civil-ks-level3")
            self.assertTrue(tables.serve("de;q=0, *", ["de", "en"], default="de").startswith("en"))


if __name__ == "__main__":
    unittest.main()

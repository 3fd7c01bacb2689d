"""The examples of the package's texts, wrong uses, and lists."""
import doctest
import json
import os
import re
import subprocess
import sys
import unittest
from pathlib import Path
from unittest import mock

import icu_locale
from icu_locale import (Circle, Closed, InvalidLanguage, InvalidList, InvalidSubtag, LineRefused, Match, NameMissing,
                        Negotiator, NoCommand, NoJson, NoList, NoTables, NotSettled, Refused, TableMissing, Tables, _held)
from icu_locale.example import SUPPLEMENT, TABLES

UNSETTLED = """{"likely_language": {"und": ["en", "Latn", "US"], "language": {"xx": ["Zzzz", "DE"]}},
 "likely_script_region": {}}"""
# What is no identifier, and what would be none or two in a line.
FAULTY = ["", " ", "en ", " en", "en zh", "e", "en-", "en\n", "en\0", "\xe9n", b"\xff", "\ud800"]
NO_TEXTS = [5, 3 * 10 ** 9, None, 1.5, ["en"], object()]
TOP = Path(__file__).resolve().parents[3]


def without(text, *members):
    """A text of JSON without some members."""
    return json.dumps({name: its for name, its in json.loads(text).items() if name not in members})


class Examples(unittest.TestCase):
    def test_room(self):
        with Tables.from_json(TABLES) as tables:
            text = "de-" + "-".join(f"piece{number:03}" for number in range(1000))
            self.assertEqual(tables.maximize(text), f"de-Latn-DE{text[2:]}")
            self.assertEqual(len(tables._free), 1)
            with mock.patch.object(_held, "LARGEST", 1000):
                self.assertEqual(tables.maximize(text), f"de-Latn-DE{text[2:]}")
                self.assertEqual(len(tables._free), 0)
            self.assertEqual(tables.maximize("zh"), "zh-Hans-CN")
            self.assertEqual(len(tables._free), 1)

    def test_examples(self):
        runner, names = doctest.DocTestRunner(), {name: getattr(icu_locale, name) for name in icu_locale.__all__}
        inherited = [("Tables", each) for each in Tables.__mro__[1:-1]]
        for name, shown in [("icu_locale", icu_locale), *names.items(), *inherited]:
            for example in doctest.DocTestFinder().find(shown, name, module=False, globs=dict(names)):
                runner.run(example)
        self.assertEqual(runner.failures, 0)
        self.assertGreater(runner.tries, 40)

    def test_version(self):
        self.assertEqual(icu_locale.__version__, (TOP / "VERSION").read_text().strip())

    def test_missing_library(self):
        words = [sys.executable, "-c", "import icu_locale\ntry: icu_locale.Tables.from_json('{}')\nexcept OSError as fault: print(fault)"]
        path = os.pathsep.join(each for each in sys.path if each)
        for missing in ("/missing.so", "libm.so.6"):
            told = subprocess.run(words, env={**os.environ, "PYTHONPATH": path, "ICU_LOCALE_LIBRARY": missing},
                                  capture_output=True, text=True, check=True).stdout
            self.assertIn("ICU_LOCALE_LIBRARY", told)
            self.assertIn(missing, told)

    def test_names(self):
        types = [each for name in icu_locale.__all__ if isinstance(each := getattr(icu_locale, name), type)]
        self.assertEqual(len(types), len(icu_locale.__all__) - 15)
        for each in types:
            self.assertTrue(each.__doc__)
            self.assertEqual(each.__module__, "icu_locale")


class Fallback(unittest.TestCase):
    PARENTS = '{"parents": {"en-AU": "en-001", "aa": "qbb", "qbb": "aa"}}'

    def test_chains(self):
        with Tables.from_json(TABLES) as tables:
            self.assertEqual(tables.fallback("en-AU"), ["en-AU", "en", "und"])
            self.assertEqual(tables.fallback("zh_TW"), ["zh-TW", "zh-Hant-TW", "zh-Hant", "und"])
            self.assertEqual(tables.fallback("de_DE.UTF-8", syntax="posix"), ["de-DE", "de", "und"])
            self.assertRaises(InvalidLanguage, tables.fallback, "")
        with Tables.from_json(TABLES, self.PARENTS.encode()) as tables, tables.share() as other:
            for each in (tables, other):
                self.assertEqual(each.fallback("en-AU-fonipa"), ["en-AU-fonipa", "en-AU", "en-001", "en", "und"])
                with self.assertRaises(Circle) as refused:
                    each.fallback("aa-DJ")
                self.assertEqual((refused.exception.name, refused.exception.number), ("Circle", 1))

    def test_supplements(self):
        for supplement, refusal in [("", NoJson), ("{", NoJson), ("[]", NoTables), ('{"parents": 1}', NoTables)]:
            self.assertRaises(refusal, Tables.from_json, TABLES, supplement)
        self.assertRaises(TypeError, Tables.from_json, TABLES, 5)
        Tables.from_json(TABLES, "{}").close()

    def test_names(self):
        with Tables.from_json(TABLES, self.PARENTS) as tables:
            self.assertEqual(tables.name("it", "en-AU", fallback=True), "Italian")
            self.assertEqual(tables.name("it", "en", fallback=True), "Italian")
            for locale in ("de-AT", "und"):
                with self.assertRaises(NameMissing) as refused:
                    tables.name("it", locale, fallback=True)
                self.assertIn(repr(locale), str(refused.exception))
            self.assertRaises(Circle, tables.name, "it", "aa", fallback=True)


class Syntaxes(unittest.TestCase):
    def test_extensions(self):
        with Tables.from_json(TABLES) as tables:
            self.assertEqual(tables.maximize("EN-u-hc-h12-ca-buddhist-x-A"), "en-Latn-US-u-ca-buddhist-hc-h12-x-a")
            self.assertEqual(tables.minimize("zh-Hant-TW-t-ja"), "zh-TW-t-ja")
            self.assertEqual(tables.minimize("zh-Hant-TW-a-foo", favor_script=True), "zh-Hant-a-foo")
            self.assertEqual(tables.canonicalize("sh-t-sh-u-rg-abcdefg"), "sr-Latn-t-sr-latn-u-rg-xyz")
            self.assertEqual(tables.direction("ar-u-nu-latn"), "rtl")
            self.assertEqual(tables.name("it-US-x-mine", "en"), "Italian (United States)")
            self.assertRaises(InvalidSubtag, tables.maximize, "en-u")
            self.assertRaises(InvalidSubtag, tables.maximize, "zh-cmn")

    def test_readers(self):
        with Tables.from_json(TABLES) as tables:
            for call in (tables.maximize, tables.minimize, tables.canonicalize):
                self.assertEqual(call("x-mine", syntax="bcp47")[-6:], "x-mine")
                self.assertRaises(InvalidLanguage, call, "i-klingon", syntax="posix")
                self.assertRaises(ValueError, call, "en", syntax="utf8")
            self.assertEqual(tables.direction("ar_EG.UTF-8", syntax="posix"), "rtl")
            self.assertEqual(tables.name("it_US@euro", "en", syntax="posix"), "Italian (United States)")
            self.assertEqual(tables.canonicalize("C", syntax="posix"), "en-US-u-va-posix")


class WrongUses(unittest.TestCase):
    def test_closed(self):
        tables = Tables.from_json(TABLES)
        tables.close()
        tables.close()
        for call in (tables.share, lambda: tables.is_settled, lambda: tables.direction("en")):
            self.assertRaises(Closed, call)

    def test_classes(self):
        for each, constructor in ((Tables, "Tables.from_json"), (Negotiator, "`negotiator`")):
            with self.assertRaisesRegex(TypeError, constructor):
                each()
        with Tables.from_json(TABLES) as tables:
            self.assertRaises(TypeError, tables.maximize, "de", "posix")

    def test_numbers(self):
        with Tables.from_json("{}") as tables:
            self.assertRaises(TableMissing, tables.maximize, "en")
            self.assertRaises(TableMissing, lambda: tables.is_settled)
            self.assertRaises(TableMissing, tables.negotiator, ["en-"])
            for command in ("negotiate", "serve", "nearest", "locales nearest"):
                self.assertRaises(NoList, tables.answer, command, "en")
            self.assertRaises(NoCommand, tables.name, "en", "en", "no chain")
            self.assertRaises(Refused, tables.answer, b"\xff", b"\xff")

    def test_missing_members(self):
        likely = ("maximize", "minimize", "fallback", "direction", "canonicalize", "key", "distance")
        wanted = {"likely_language": likely, "likely_script_region": likely, "aliases": ("canonicalize", "key", "identifier-key"),
                  "direction": ("direction",), "matching": ("distance",), "validity": ("validate",)}
        for member, commands in wanted.items():
            with Tables.from_json(without(TABLES, member), without(SUPPLEMENT, member)) as tables:
                for command in (*commands, *(f"posix {each}" for each in commands)):
                    with self.assertRaises(TableMissing) as told:
                        tables.answer(command, "en")
                    source = ": the supplement that has it is missing" if member in ("matching", "validity") else ""
                    self.assertEqual(str(told.exception), f"The tables leave out `{member}`, which is needed{source}.")
        with Tables.from_json(without(TABLES, "likely_script_region", "aliases"), SUPPLEMENT) as tables:
            for call in (lambda: tables.is_settled, lambda: tables.negotiator(["en"]), lambda: tables.serve("en", ["en"])):
                self.assertRaisesRegex(TableMissing, "`likely_script_region`", call)

    def test_missing_members_of_what_is_served(self):
        with Tables.from_json(without(TABLES, "aliases"), SUPPLEMENT) as tables:
            self.assertRaisesRegex(TableMissing, "`aliases`", tables.serve, "en", ["en"])
        with Tables.from_json(without(TABLES, "aliases")) as tables:
            self.assertRaisesRegex(TableMissing, "`matching`", tables.serve, "en", ["en"])
            with mock.patch.object(tables._calls, "answer", wraps=tables._calls.answer) as asked:
                self.assertRaisesRegex(TableMissing, "`matching`", tables.distance, "en", "de")
            self.assertEqual(asked.call_count, 1)

    def test_long_texts(self):
        with Tables.from_json(TABLES) as tables:
            for text in ("e" * 1_000_000, b"e" * 1_000_000):
                for call in (tables.maximize, lambda it: tables.name(it, "en"), lambda it: tables.negotiator(["en", it]),
                             lambda it: tables.name("it", it), lambda it: tables.negotiator(["en"]).negotiate([it])):
                    with self.assertRaises(Refused) as refused:
                        call(text)
                    self.assertLess(len(str(refused.exception)), 300)
                with self.assertRaises(ValueError) as wrong:
                    tables.maximize("en", syntax=text)
                self.assertLess(len(str(wrong.exception)), 300)
            with self.assertRaisesRegex(InvalidLanguage, r"^InvalidLanguage: 'e{60}'\.\. of 61 characters$"):
                tables.maximize("e" * 61)

    def test_no_texts(self):
        tables = Tables.from_json(TABLES, SUPPLEMENT)
        negotiator = tables.negotiator(["en"])
        for wrong in NO_TEXTS:
            for call in (Tables.from_json, tables.maximize, tables.minimize, tables.canonicalize, tables.direction,
                         lambda text: tables.canonicalize_with("sh", text), lambda text: tables.canonicalize_with(text, "ab"),
                         lambda text: tables.name(text, "en"), lambda text: tables.name("en", text),
                         lambda text: tables.name("en", "en", text), lambda text: tables.answer(text, "en"),
                         lambda text: tables.negotiator([text]), lambda text: negotiator.negotiate(["en", text]),
                         lambda text: tables.serve("en", [text]), lambda text: tables.serve([text], ["en"]),
                         lambda text: tables.nearest([text], ["en"]), lambda text: tables.distance("en", text),
                         lambda text: tables.are_same("en", text)):
                self.assertRaises(TypeError, call, wrong)
        self.assertEqual(tables.maximize(bytearray(b"zh")), tables.maximize(memoryview(b"zh")))

    def test_no_identifiers(self):
        with Tables.from_json(TABLES) as tables:
            for wrong in ("\ud800", "en\ud800", b"\xff", "en\n", "en-", "sh\tab"):
                for call in (tables.maximize, tables.canonicalize, tables.direction, lambda text: tables.name(text, "en"),
                             lambda text: tables.canonicalize_with(text, "abcdefg")):
                    self.assertRaises((InvalidLanguage, InvalidSubtag), call, wrong)
        self.assertRaises(NoJson, Tables.from_json, '"\ud800"')

    def test_missing_names(self):
        with Tables.from_json(TABLES) as tables:
            with self.assertRaisesRegex(NameMissing, "without the locale 'de', to name 'it' in"):
                tables.name("it", "de")
            self.assertEqual(tables.name("tlh", "en"), "tlh")

    def test_long_answers(self):
        with Tables.from_json(TABLES) as tables:
            variants = "-".join(f"piece{number:03}" for number in range(200))
            self.assertEqual(tables.maximize(f"de-{variants}"), f"de-Latn-DE-{variants}")
            self.assertEqual(tables.canonicalize_with("en", "true"), ("en", ""))


class Negotiators(unittest.TestCase):
    def refuses(self, listed, faulty, call):
        """The refusal names what is faulty, and its place."""
        with self.assertRaisesRegex(InvalidList, f"place {listed.index(faulty)} .*: {re.escape(repr(faulty))}") as told:
            call(listed)
        self.assertEqual((told.exception.place, told.exception.identifier), (listed.index(faulty), faulty))

    def test_lists(self):
        with Tables.from_json(TABLES) as tables:
            for faulty in FAULTY:
                for listed in ([faulty], ["en", faulty], [faulty, "en"]):
                    self.refuses(listed, faulty, tables.negotiator)
            for text in ("en", b"en", ""):
                self.assertRaises(TypeError, tables.negotiator, text)
            self.assertEqual(tables.negotiator([]).negotiate(["en"]), None)
            self.assertEqual(tables.negotiator(iter(["de", b"zh_tw"])).available, ("de", b"zh_tw"))

    def test_requests(self):
        with Tables.from_json(TABLES).negotiator(["en-US", "zh_Hant", "yue-CN"]) as negotiator:
            for faulty in FAULTY:
                for listed in ([faulty], ["en", faulty], [faulty, "en"]):
                    self.refuses(listed, faulty, negotiator.negotiate)
            self.assertRaises(TypeError, negotiator.negotiate, "en")
            self.assertEqual(negotiator.negotiate([]), None)
            self.assertEqual(negotiator.negotiate(iter(["fr", b"yue-Hans"])), Match(1, 2))
            self.assertEqual(negotiator.answer("negotiate", "fr ZH-tw"), "1\tzh-Hant")
            self.assertRaises(LineRefused, negotiator.answer, "negotiate", "en ")
            self.assertEqual(negotiator.answer("maximize", "zh-TW"), "zh-Hant-TW\tM")

    def test_closed(self):
        tables = Tables.from_json(TABLES)
        negotiator = tables.negotiator(["en"])
        tables.close()
        self.assertRaises(Closed, tables.negotiator, ["en"])
        self.assertEqual(negotiator.negotiate(["en-US"]), Match(0, 0))
        negotiator.close()
        negotiator.close()
        self.assertRaises(Closed, negotiator.negotiate, ["en"])
        self.assertEqual(negotiator.available, ("en",))

    def test_tables(self):
        with Tables.from_json(UNSETTLED) as tables:
            negotiator = tables.negotiator(["en"])
            for requests in (["en"], ["en-"], []):
                self.assertRaises(NotSettled, negotiator.negotiate, requests)
            self.assertRaises(NotSettled, negotiator.answer, "negotiate", "en")
            self.assertRaises(InvalidList, tables.negotiator, ["en-"])

    def test_long_lists(self):
        with Tables.from_json(TABLES) as tables:
            available = [f"en-{number}" for number in range(1000, 3000)]
            negotiator = tables.negotiator(available)
            for place in range(0, 2000, 97):
                self.assertEqual(negotiator.negotiate(["fr", available[place]]), Match(1, place))


if __name__ == "__main__":
    unittest.main()

"""Tables of a CLDR folder: the small one of the repository, and Debian's where it is there."""
import os
import subprocess
import sys
import unittest
from pathlib import Path

from icu_locale import NoCldr, Tables
from icu_locale._tables import DEBIAN_CLDR

SMALL = Path(__file__).resolve().parents[3] / "tools" / "small-cldr" / "common"


class Cldr(unittest.TestCase):
    def test_small(self):
        tables = Tables.from_cldr(SMALL, ["qaa"])
        self.assertTrue(tables.is_settled)
        written = subprocess.run([sys.executable, "-m", "icu_locale.cldr", "--settled", SMALL, "qaa"], capture_output=True,
                                 check=True).stdout
        self.assertEqual(Tables.from_json(written).name("qaa", "qaa"), tables.name("qaa", "qaa"))
        self.assertEqual(tables.name("qaa-u-qc-small-tz-xafir", "qaa"), "{Small quantity, tz: xafir} of 'First'")
        tables = Tables.from_cldr(SMALL, ["qaa"], zones=True)
        self.assertEqual(tables.name("qaa-u-qc-small-tz-xafir", "qaa"), "{Small quantity, tz: Time: City A} of 'First'")
        for folder, locales in ((SMALL, ["qzz"]), (SMALL, ["no locale"]), (SMALL / "missing", [])):
            self.assertRaises(NoCldr, Tables.from_cldr, folder, locales)
        self.assertRaises(TypeError, Tables.from_cldr, SMALL, "qaa")
        with self.assertRaises(NoCldr) as refused:
            Tables.from_cldr(SMALL, ["x" * 1_000_000])
        self.assertLess(len(str(refused.exception)), 300)

    def test_words(self):
        def told(*words):
            return subprocess.run([sys.executable, "-m", "icu_locale.cldr", *words], capture_output=True, text=True, check=False)

        self.assertIn("--account", told("--help").stdout)
        for words in ([], ["--no-such-word"], ["missing"], ["--supplement", SMALL, "qzz"], ["--without", "zones", SMALL],
                      [SMALL, "qzz"]):
            wrong = told(*words)
            self.assertEqual((wrong.stdout, wrong.stderr.count("\n"), wrong.returncode), ("", 1, 2))
            self.assertTrue(wrong.stderr.startswith("python3 -m icu_locale.cldr: "))
        self.assertEqual(told(SMALL).stderr.count("\n"), 1)
        self.assertGreater(told("--account", SMALL).stderr.count("\n"), 5)

    @unittest.skipUnless(os.path.isdir(DEBIAN_CLDR), "there is no Debian package unicode-cldr-core")
    def test_debian(self):
        with Tables.from_cldr(locales=["en", "de"]) as tables:
            self.assertEqual(tables.name("de-AT", "de"), "Österreichisches Deutsch")
            self.assertEqual(tables.serve("iw, zh-HK;q=0.1", ["en", "he", "zh-Hant"]), "he")
            self.assertEqual(tables.fallback("en-AU"), ["en-AU", "en-001", "en", "und"])
            self.assertTrue(tables.is_settled)
        with Tables.from_cldr(settled=False) as tables:
            self.assertFalse(tables.is_settled)
            self.assertEqual(tables.serve("iw, zh-HK;q=0.1", ["en", "he", "zh-Hant"]), "he")


if __name__ == "__main__":
    unittest.main()

"""CLDR's data inside the package: its answers are those of CLDR's folder. In a clone `tools/package-data out/data` makes
it."""
import contextlib
import gc
import gzip
import json
import os
import sys
import tempfile
import unittest
from pathlib import Path
from unittest import mock

from icu_locale import MenuRow, NameMissing, NoCldr, Refused, Tables, _data, _menu, cldr_locales, cldr_version
from icu_locale._tables import DEBIAN_CLDR
from icu_locale.cldr import flat

LANGUAGES = ("und", "en", "de", "sr", "zh", "ar", "iw", "hy", "sgn", "mo", "tlh", "yue")
HAS_DATA = any((folder / "base-and-supplement.gz").is_file() for folder in _data.FOLDERS)
# What the data is compared with, which has to be what it was made of.
IS_DEBIAN = os.path.isdir(DEBIAN_CLDR)


def identifiers():
    """Some hundred identifiers, and some texts that are none."""
    for language in LANGUAGES:
        for script in ("", "-Latn", "-Arab", "-Hant", "-Qaai"):
            for region in ("", "-DE", "-TW", "-SU", "-419", "-IR"):
                yield language + script + region
        for rest in ("-1996", "-heploc-hepburn", "-u-ca-islamicc-rg-usca", "-"):
            yield language + rest
    yield ""


def told(call, *words, **named):
    """What a call gives, or how it refuses."""
    try:
        return call(*words, **named)
    except Refused as refusal:
        return type(refusal), str(refusal)


def answers(tables):
    """The answers to the identifiers by each call."""
    calls = [tables.maximize, tables.minimize, tables.canonicalize, tables.direction, tables.fallback,
             lambda it: tables.minimize(it, favor_script=True), lambda it: tables.canonicalize_with(it, "usca"),
             lambda it: tables.name(it, "en"), lambda it: tables.name(it, "en", "menu-light"),
             lambda it: tables.name(it, "en-AU", fallback=True), lambda it: tables.name(it, "de"),
             lambda it: tables.serve(it, ["en", "de", "zh_Hant"]), lambda it: tables.distance(it, "en-GB"),
             lambda it: tables.negotiator(["en", "zh-Hant", "sr-Latn"]).negotiate([it]),
             lambda it: tables.nearest([it], ["en", "ar"]), lambda it: tables.are_same(it, "he")]
    return {(place, it): told(call, it) for place, call in enumerate(calls) for it in identifiers()}


@unittest.skipUnless(HAS_DATA, "the package has no data of CLDR inside")
class Data(unittest.TestCase):
    @unittest.skipUnless(IS_DEBIAN, "there is no Debian package unicode-cldr-core")
    def test_answers(self):
        with Tables.cldr(["en"]) as inside, Tables.from_cldr(locales=["en"]) as outside:
            found, wanted = answers(inside), answers(outside)
        self.assertGreater(len(set(identifiers())), 400)
        self.assertEqual({key: it for key, it in found.items() if wanted[key] != it}, {})

    @unittest.skipUnless(IS_DEBIAN, "there is no Debian package unicode-cldr-core")
    def test_names(self):
        locales = ["de", "zh-Hant-HK", "en-GB", "sr-Latn", "hi"]
        with Tables.cldr(locales) as inside, Tables.from_cldr(locales=locales) as outside, Tables.cldr("all") as every:
            for locale in locales:
                for it in identifiers():
                    wanted = told(outside.name, it, locale)
                    self.assertEqual(told(inside.name, it, locale), wanted)
                    self.assertEqual(told(every.name, it, locale), wanted)

    def test_extensions(self):
        named = {("en-u-ca-buddhist", "en"): "English (Buddhist Calendar)", ("en-u-cu-eur", "en"): "English (Currency: €)",
                 ("ja-t-en-u-hc-h12", "de"): "Japanisch (t: Englisch, 12-Stunden-Format [1-12])"}
        raw = {("de-u-rg-ustx", "en"): "German (Region For Supplemental Data: ustx)",
               ("de-u-tz-uslax", "en"): "German (Time Zone: uslax)"}
        with Tables.cldr(["en", "de"]) as tables, Tables.cldr("all") as every:
            for (it, locale), name in (named | raw).items():
                self.assertEqual((tables.name(it, locale), every.name(it, locale)), (name, name))
            self.assertEqual(tables.name("en-u-ca-buddhist", "en-AU", fallback=True), "English (Buddhist Calendar)")

    @unittest.skipUnless(IS_DEBIAN, "there is no Debian package unicode-cldr-core")
    def test_large_names(self):
        with Tables.from_cldr(locales=iter(["en"]), subdivisions=True, zones=True) as tables:
            self.assertEqual(tables.name("de-u-rg-ustx", "en"), "German (Region For Supplemental Data: Texas)")
            self.assertEqual(tables.name("de-u-tz-uslax", "en"), "German (Time Zone: Los Angeles Time)")
        with Tables.from_cldr(locales=["en"], zones=True) as tables:
            self.assertEqual(tables.name("de-u-rg-ustx-tz-uslax", "en"),
                             "German (Region For Supplemental Data: ustx, Time Zone: Los Angeles Time)")

    def test_locales(self):
        with Tables.cldr() as tables:
            self.assertEqual(tables.maximize("zh-TW"), "zh-Hant-TW")
            self.assertTrue(tables.is_settled)
            self.assertRaises(NameMissing, tables.name, "it", "en")
        with Tables.cldr(iter(["EN_gb", "en-GB", "zh_hant"])) as tables:
            self.assertEqual(tables.name("it", "en-GB"), "Italian")
            self.assertEqual(tables.name("it", "zh-Hant"), "義大利文")
            self.assertRaises(NameMissing, tables.name, "it", "en")

    def test_unknown_locales(self):
        for locale in ("xx", "all", "", "no locale", "base-and-supplement", "copyright", "../data/en", "en\0",
                       "\u212al"):
            with self.assertRaises(NoCldr) as refused:
                Tables.cldr(["en", locale])
            self.assertEqual(str(refused.exception), f"CLDR has no locale {locale}")
        with self.assertRaises(NoCldr) as refused:
            Tables.cldr(["e" * 1_000_000])
        self.assertLess(len(str(refused.exception)), 300)
        for wrong in ("en", b"en", 5, [5], [b"en"], [None]):
            self.assertRaises(TypeError, Tables.cldr, wrong)

    def test_chains(self):
        with Tables.cldr(["zh_TW", "en-XX", "de-u-co-phonebk"]) as tables:
            self.assertEqual(tables.name("it", "zh-TW", fallback=True), "義大利文")
            self.assertEqual([tables.name("it", each) for each in ("zh-Hant-TW", "en", "de")], ["義大利文", "Italian", "Italienisch"])
        locales = cldr_locales()
        self.assertEqual(locales, sorted(locales))
        self.assertTrue("zh-Hant" in locales and "zh-TW" not in locales)
        self.assertRegex(cldr_version(), "^[0-9.]+$")

    def test_first_groups(self):
        folder = next(folder for folder in _data.FOLDERS if folder.is_dir())
        for path in sorted(folder.glob("*.gz")):
            if path.stem not in (_data.BASE, _data.ALL):
                with gzip.open(path) as file:
                    names = file.readline().decode("ascii").rstrip("\n").rpartition(":")[2]
                first = names.partition("|")[0].partition(";")[0]
                self.assertIn(path.stem, first.split(","))

    def test_rows_come_in_order(self):
        """Tables whose members come in the order of their names are read in one pass."""
        asked = ["zh", "en-AU", "de", "en"]

        def in_order(members):
            names = [name for name, _ in members]
            if set(names) <= set(asked):
                self.assertEqual(names, sorted(names))

        for text in _data.texts_of(asked):
            json.loads(text, object_pairs_hook=in_order)

    def test_all(self):
        """What `all` opens is what each locale has, with the names in the flat form."""
        tables, supplement = map(json.loads, _data.texts_of(cldr_locales()))
        with contextlib.closing(_data.names_of_all()) as names:
            self.assertEqual(flat.read(names), flat.groups_of(tables.pop("names")))
        self.assertEqual(tuple(map(json.loads, _data.texts_of_all())), (tables, supplement))

    def test_names_that_are_lent(self):
        """They stay as long as what was made of the tables."""
        tables = Tables.cldr("all")
        self.assertEqual(len(tables.flat_names()), flat.HEAD.size)
        switcher, shared = tables.switcher(["en", "de"]), tables.share()
        tables.close()
        del tables
        gc.collect()
        self.assertEqual((shared.name("it", "de"), switcher.serve("de-AT")), ("Italienisch", "de"))
        with Tables.cldr(["de"]) as one, Tables.cldr("all") as every:
            for kind in ("languages", "scripts", "regions", "variants"):
                self.assertEqual(every.listed(kind, "de"), one.listed(kind, "de"))

    def test_damage_of_all(self):
        folder = next(folder for folder in _data.FOLDERS if folder.is_dir())
        with tempfile.TemporaryDirectory() as work, mock.patch.object(_data, "FOLDERS", (Path(work),)):
            files = {name: (folder / name).read_bytes() for name in ("base-and-supplement.gz", "all-but-names.gz", "names.flat")}
            for name, whole in files.items():
                Path(work, name).write_bytes(whole)
            Tables.cldr("all").close()
            whole = files["names.flat"]
            packed = [gzip.compress(text) for text in (b"", b"{}", b"{}\n{}\n{}", b"{\n{}", b"{}\n[]")]
            for name, faults in (("names.flat", [b"", b"no file", whole[:-1], whole[:8] + b"\xff" + whole[9:]]),
                                 ("all-but-names.gz", [b"", b"no file", files["all-but-names.gz"][:-9], *packed])):
                for fault in faults:
                    Path(work, name).write_bytes(fault)
                    with self.assertRaisesRegex(NoCldr, f"{work}(/{name})? is damaged"):
                        Tables.cldr("all")
                Path(work, name).unlink()
                with self.assertRaisesRegex(NoCldr, f"{name} is damaged"):
                    Tables.cldr("all")
                Path(work, name).write_bytes(files[name])

    def test_damage(self):
        folder = next(folder for folder in _data.FOLDERS if folder.is_dir())
        with tempfile.TemporaryDirectory() as work, mock.patch.object(_data, "FOLDERS", (Path(work),)):
            copy = Path(work)
            for name in ("base-and-supplement.gz", "en.gz", "locales", "version"):
                (copy / name).write_bytes((folder / name).read_bytes())
            whole = (copy / "en.gz").read_bytes()
            changed = whole[:99] + bytes([whole[99] ^ 8]) + whole[100:]
            for fault in (b"no file", b"", changed, gzip.compress(b""), whole[:-9]):
                (copy / "en.gz").write_bytes(fault)
                with self.assertRaisesRegex(NoCldr, f"{work}(/en.gz)? is damaged"):
                    Tables.cldr(["en", "en-GB"])
            with Tables.cldr(["en"]) as tables:  # its rows are before what is cut off, which is not read
                self.assertEqual(tables.name("it", "en"), "Italian")
            text = gzip.decompress(whole)
            for part, other in ((b"Italian", b"Italien"), (b"en-AE", b"en-AU"), (b":en,", b":de,"), (text[:1], b"x")):
                (copy / "en.gz").write_bytes(gzip.compress(text.replace(part, other, 1)))
                with self.assertRaisesRegex(NoCldr, "en.gz is damaged: its first block|is damaged: there is no en"):
                    Tables.cldr(["en"])
            Tables.cldr().close()
            for fault in (b"no file", gzip.compress(b""), gzip.compress(b"{\n}\n[\n}")):
                (copy / "base-and-supplement.gz").write_bytes(fault)
                with self.assertRaisesRegex(NoCldr, f"{work}(/base-and-supplement.gz)? is damaged"):
                    Tables.cldr()

    def test_menu(self):
        locales = ["ja", "fr", "en", "zh-Hant"]
        with Tables.cldr(locales) as tables:
            rows = tables.menu(iter(locales), "en")
            self.assertEqual([tuple(row) for row in rows], [
                ("en", "English", "English"), ("fr", "French", "français"), ("ja", "Japanese", "日本語"),
                ("zh-Hant", "Traditional Chinese", "繁體中文")])
            self.assertEqual([row.locale for row in tables.menu(locales, "fr", key=lambda name: -len(name))],
                             ["zh-Hant", "fr", "ja", "en"])
            self.assertEqual([row.name for row in tables.menu(locales, "en", "menu-light")][0], "Chinese, Mandarin (Traditional)")
            self.assertEqual([row.own for row in tables.menu(["fr-CA"], "en-AU", fallback=True)], ["français canadien"])
            self.assertEqual(tables.menu([], "en"), [])
            self.assertRaises(NameMissing, tables.menu, ["de"], "en")
            self.assertRaises(NameMissing, tables.menu, ["en"], "de")
            self.assertRaises(TypeError, tables.menu, "en", "en")
            self.assertRaises(Refused, tables.menu, ["e"], "en")
            with mock.patch.dict(sys.modules, icu=None):
                _menu.key_of.cache_clear()
                self.addCleanup(_menu.key_of.cache_clear)
                self.assertEqual(tables.menu(locales, "en"), rows)

    def test_order(self):
        names = ["zulu", "Österreich", "Oslo", "a"]
        rows = [MenuRow("", name, "") for name in names]
        try:
            import icu  # noqa: F401
        except ImportError:
            wanted = {"de": ["Oslo", "a", "zulu", "Österreich"]}
        else:
            wanted = {"de": ["a", "Oslo", "Österreich", "zulu"], "sv": ["a", "Oslo", "zulu", "Österreich"]}
        for language, names in wanted.items():
            self.assertEqual([row.name for row in _menu.in_order(rows, _menu.key_of(language))], names)

    def test_notice(self):
        folder = next(folder for folder in _data.FOLDERS if folder.is_dir())
        self.assertIn("Unicode, Inc.", (folder / "copyright").read_text(encoding="utf-8"))


class WithoutData(unittest.TestCase):
    def test_refusal(self):
        with tempfile.TemporaryDirectory() as folder, mock.patch.object(_data, "FOLDERS", (Path(folder),)):
            for locales in ((), ["en"], "all"):
                with self.assertRaisesRegex(NoCldr, "Tables.from_cldr takes a folder"):
                    Tables.cldr(locales)
            self.assertIsNone(cldr_version())
            with mock.patch.dict(os.environ, ICU_LOCALE_DATA="/nowhere"), self.assertRaisesRegex(NoCldr, "names /nowhere"):
                Tables.cldr()

    @unittest.skipUnless(HAS_DATA, "the package has no data of CLDR inside")
    def test_named_folder(self):
        found = next(folder for folder in _data.FOLDERS if folder.is_dir())
        with mock.patch.dict(os.environ, ICU_LOCALE_DATA=str(found)), mock.patch.object(_data, "FOLDERS", ()):
            with Tables.cldr() as tables:
                self.assertEqual(tables.maximize("zh-TW"), "zh-Hant-TW")


if __name__ == "__main__":
    unittest.main()

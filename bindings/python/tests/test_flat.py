"""Names in the flat form: what is written is read as it was, and of changed bytes each is refused or has the form."""
import contextlib
import doctest
import json
import os
import random
import struct
import subprocess
import sys
import tempfile
import unittest
from pathlib import Path
from unittest import mock

from icu_locale import _data
from icu_locale.cldr import flat

NAMES = {
    "language/medium/light": {"en": {"it": "Italian", "de": "German"}, "de": {"it": "Italienisch", "de": "Deutsch"},
                              "de-AT": {"de": "Deutsch", "it": "Italienisch"}, "zh-Hant": {"it": "義大利文"}},
    "region/medium/light": {"en": {"150": "Europe", "US": "United States", "QX": ""}},
    "script/medium/light": {"en": {}},
}
GROUPS = flat.groups_of(NAMES)
TOOLS = Path(__file__).resolve().parents[3] / "tools"
TOOL = TOOLS / "flat-names"


def packed(groups, ends, rows, texts, magic=b"ICUTEXT1"):
    """A file of four lists, as they are handed in."""
    return b"".join([magic, struct.pack("<3I", len(groups), len(ends), len(rows)), *(struct.pack("<3I", *it) for it in groups),
                     *(struct.pack("<I", it) for it in ends), *(struct.pack("<2I2H", *it) for it in rows), texts])


class Flat(unittest.TestCase):
    def test_examples(self):
        self.assertEqual(doctest.testmod(flat).failed, 0)
        self.assertGreater(doctest.testmod(flat).attempted, 3)

    def test_what_is_written_is_read(self):
        for groups in (GROUPS, {}, {"a": {}}, {"": {"": ""}}, {"a/b": {"k": "t" * 65535}}, {"é/ü": {"€": "\U0001f600", "\0": "\n"}}):
            self.assertEqual(flat.read(flat.written(groups)), groups)
        self.assertEqual(sorted(flat.read(flat.written(GROUPS))), list(flat.read(flat.written(GROUPS))))

    def test_one_place_for_what_is_equal(self):
        whole = flat.written(GROUPS)
        _, groups, runs, rows = flat.HEAD.unpack_from(whole)
        self.assertEqual((groups, runs, rows), (6, 5, 8))  # `de` and `de-AT` have one run
        self.assertEqual(whole.count("Italienisch".encode()), 1)
        self.assertEqual(whole.count(b"German"), 1)

    def test_the_same_bytes_in_any_order(self):
        whole, random_order = flat.written(GROUPS), random.Random(1)
        for _ in range(20):
            groups = [(name, random_order.sample(list(rows.items()), len(rows))) for name, rows in GROUPS.items()]
            random_order.shuffle(groups)
            self.assertEqual(flat.written({name: dict(rows) for name, rows in groups}), whole)

    def test_order_is_that_of_bytes(self):
        groups = {"m/\U00010000": {"\uffff": "1", "\U00010000": "2", "é": "3", "z": "4"}, "m/\uffff": {}}
        self.assertEqual(flat.read(flat.written(groups)), groups)
        self.assertEqual(list(flat.read(flat.written(groups))), ["m/\uffff", "m/\U00010000"])

    def test_what_cannot_be_written(self):
        for groups in ({"a/b": {"k": "t" * 65536}}, {"a/b": {"k" * 65536: "t"}}, {"a/b": {"k": "é" * 32768}}, {"a/\ud800": {}},
                       {"a/b": {"\udfff": "t"}}):
            self.assertRaises(flat.NotFlat, flat.written, groups)

    def test_what_has_the_form(self):
        self.assertEqual(flat.read(packed([], [], [], b"")), {})
        self.assertEqual(flat.read(packed([], [], [], "unused é".encode())), {})
        self.assertEqual(flat.read(packed([], [0, 0], [], b"")), {})
        self.assertEqual(flat.read(packed([(0, 1, 1), (1, 1, 1)], [0, 1], [(2, 4, 2, 0)], b"abkk")),
                         {"a": {"kk": ""}, "b": {"kk": ""}})
        self.assertEqual(flat.read(packed([(0, 0, 0)], [0], [], b"")), {"": {}})

    def test_what_has_not_the_form(self):
        whole = packed([(0, 1, 0)], [1], [(1, 2, 1, 1)], b"abc")
        self.assertEqual(flat.read(whole), {"a": {"b": "c"}})
        e = "é".encode()
        faulty = {
            "nothing": b"",
            "half of a head": whole[:19],
            "another word": b"icutext1" + whole[8:],
            "lists that are longer than the file": whole[:40],
            "a place behind the texts": packed([(4, 0, 0)], [0], [], b"abc"),
            "a length behind the texts": packed([(0, 4, 0)], [0], [], b"abc"),
            "a place far behind them": packed([(0xFFFFFFFF, 0xFFFFFFFF, 0)], [0], [], b"abc"),
            "texts that are none of UTF-8": packed([], [], [], b"\xff"),
            "a surrogate": packed([], [], [], b"\xed\xa0\x80"),
            "a name that begins in a character": packed([(1, 1, 0)], [0], [], e),
            "a name that ends in a character": packed([(0, 1, 0)], [0], [], e),
            "an empty text in a character": packed([(0, 2, 0)], [1], [(0, 1, 2, 0)], e),
            "a run that is not there": packed([(0, 1, 1)], [0], [], b"a"),
            "groups that fall": packed([(1, 1, 0), (0, 1, 0)], [0], [], b"ab"),
            "a group twice": packed([(0, 1, 0), (0, 1, 0)], [0], [], b"ab"),
            "ends that fall": packed([], [1, 0, 1], [(0, 0, 1, 1)], b"a"),
            "an end behind the rows": packed([], [2], [(0, 0, 1, 1)], b"a"),
            "rows behind the last run": packed([], [0], [(0, 0, 1, 1)], b"a"),
            "rows without a run": packed([], [], [(0, 0, 1, 1)], b"a"),
            "keys that fall": packed([], [2], [(1, 0, 1, 1), (0, 0, 1, 1)], b"ab"),
            "a key twice": packed([], [2], [(0, 0, 1, 1), (0, 1, 1, 1)], b"ab"),
        }
        for what, it in faulty.items():
            with self.subTest(what):
                self.assertRaises(flat.NotFlat, flat.read, it)
        self.assertEqual(flat.read(packed([], [1, 2], [(1, 0, 1, 1), (0, 0, 1, 1)], b"ab")), {})  # keys fall between two runs

    def test_changed_bytes(self):
        """Each change of one byte is refused, or what is read is written and read as that."""
        whole, kept = flat.written(GROUPS), 0
        for place in range(len(whole)):
            for change in (1, 0x20, 0x80, 0xFF):
                changed = whole[:place] + bytes([whole[place] ^ change]) + whole[place + 1:]
                try:
                    groups = flat.read(changed)
                except flat.NotFlat:
                    continue
                kept += 1
                self.assertEqual(flat.read(flat.written(groups)), groups)
        self.assertGreater(kept, 20)
        for length in range(len(whole)):
            self.assertRaises(flat.NotFlat, flat.read, whole[:length])


@unittest.skipUnless(TOOL.is_file(), "there is no tools/flat-names, as in a clone")
class Tool(unittest.TestCase):
    def told(self, *words):
        return subprocess.run([sys.executable, TOOL, *words], capture_output=True, text=True, check=False)

    def test_what_it_writes(self):
        with tempfile.TemporaryDirectory() as folder:
            tables, to = Path(folder, "tables.json"), Path(folder, "names.flat")
            tables.write_text(json.dumps({"essentials": {}, "names": NAMES}), encoding="utf-8")
            said = self.told(tables, to)
            self.assertEqual((said.returncode, said.stderr), (0, ""))
            self.assertEqual(to.read_bytes(), flat.written(GROUPS))
            self.assertEqual(said.stdout, f"{to}: 6 groups, 5 runs, 8 rows, {len(to.read_bytes())} bytes\n")
            tables.write_text("{}", encoding="utf-8")
            self.assertEqual(self.told(tables, to).returncode, 0)
            self.assertEqual(flat.read(to.read_bytes()), {})

    def test_wrong_words(self):
        self.assertIn("flat form", self.told("--help").stdout)
        with tempfile.TemporaryDirectory() as folder:
            held = {"none": "{", "list": "[]", "names": '{"names": []}', "table": '{"names": {"a": 1}}',
                    "text": '{"names": {"a": {"b": {"c": 1}}}}', "long": json.dumps({"names": {"a": {"b": {"c": "t" * 65536}}}})}
            for name, text in held.items():
                Path(folder, name).write_text(text, encoding="utf-8")
            to = Path(folder, "to")
            for words in ([], ["missing"], ["missing", to], ["--no-such-word"], *([Path(folder, name), to] for name in held),
                          [Path(folder, "none"), to, "more"]):
                wrong = self.told(*words)
                self.assertEqual((wrong.stdout, wrong.stderr.count("\n"), wrong.returncode), ("", 1, 2), words)
            self.assertFalse(to.exists())

    def test_data_of_packages(self):
        """What `all` opens is what each locale has, with the names in the flat form."""
        with tempfile.TemporaryDirectory() as work, mock.patch.dict(os.environ, ICU_LOCALE_DATA=str(Path(work, "data"))):
            made = ["--cldr", TOOLS / "small-cldr" / "common", "--notice", __file__, Path(work, "data")]
            subprocess.run([sys.executable, TOOLS / "package-data", *made], check=True)
            tables, supplement = map(json.loads, _data.texts_of(_data.cldr_locales()))
            with contextlib.closing(_data.names_of_all()) as names:
                groups = flat.read(names)
            self.assertGreater(len(groups), 5)
            self.assertEqual(groups, flat.groups_of(tables.pop("names")))
            self.assertEqual(tuple(map(json.loads, _data.texts_of_all())), (tables, supplement))


if __name__ == "__main__":
    unittest.main()

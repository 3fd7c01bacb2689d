"""Names that are lent to tables in the flat form: what is asked first, what is refused, and what stays."""
import gc
import json
import mmap
import tempfile
import threading
import unittest

from icu_locale import Closed, NoTables, Tables, TablesShared
from icu_locale.cldr import flat
from icu_locale.example import SUPPLEMENT, TABLES

PATTERNS = {"essentials": {"en": {"pattern": [0, " (", 1, ")"], "separator": [0, ", ", 1]}}}
BARE = json.dumps(PATTERNS)
OWN = json.dumps({**PATTERNS, "names": {"region/medium/light": {"en": {"US": "own"}}}})
LENT = flat.written({"en/region/medium/light": {"150": "Europe", "US": "lent"}, "en/language/medium/light": {"it": "Italian"}})
OTHER = flat.written({"en/region/medium/light": {"150": "Europa"}})


def names(tables):
    """What three regions are called."""
    return [tables.region_name(region, "en").name for region in ("150", "US", "QX")]


class Lent(unittest.TestCase):
    def test_own_names_come_first(self):
        with Tables.from_json(OWN) as tables:
            self.assertEqual(names(tables), ["150", "own", "QX"])
            tables.lend_names(LENT)
            self.assertEqual(names(tables), ["Europe", "own", "QX"])
            self.assertEqual(tables.name("it-150", "en"), "Italian (Europe)")
            tables.lend_names(OTHER)
            self.assertEqual(names(tables), ["Europa", "own", "QX"])
            self.assertEqual(tables.name("it-150", "en"), "it (Europa)")
            tables.lend_names(flat.written({}))
            self.assertEqual(names(tables), ["150", "own", "QX"])

    def test_nothing_else_changes(self):
        with Tables.from_json(TABLES, SUPPLEMENT) as tables, Tables.from_json(TABLES, SUPPLEMENT) as other:
            tables.lend_names(LENT)
            for line in ("zh-TW", "sh", "it-Qabc-150", "e", "en-US-u-ca-buddhist"):
                for call in ("maximize", "minimize", "canonicalize", "direction", "fallback"):
                    with self.subTest(line=line, call=call):
                        self.assertEqual(told(tables, call, line), told(other, call, line))
            self.assertEqual(tables.flat_names(), other.flat_names())

    def test_what_is_written(self):
        for text in (TABLES, BARE, OWN):
            with Tables.from_json(text) as tables:
                self.assertEqual(flat.read(tables.flat_names()), flat.groups_of(json.loads(text).get("names", {})))
        with Tables.from_json(TABLES) as named, Tables.from_json(BARE) as tables:
            tables.lend_names(named.flat_names())
            self.assertEqual(tables.name("it-US", "en"), named.name("it-US", "en"))

    def test_what_has_no_flat_form(self):
        rows = {"it": "x" * 65536}
        with Tables.from_json(json.dumps({"names": {"language/medium/light": {"en": rows}}})) as tables:
            self.assertRaisesRegex(NoTables, "65,535 bytes", tables.flat_names)
            rows["it"] = rows["it"][1:]
        with Tables.from_json(json.dumps({"names": {"language/medium/light": {"en": rows}}})) as tables:
            self.assertEqual(flat.read(tables.flat_names()), {"en/language/medium/light": rows})

    def test_wrong_bytes(self):
        with Tables.from_json(BARE) as tables:
            tables.lend_names(LENT)
            for wrong in (b"", b"ICUTEXT1", LENT[:-1], b"icutext1" + LENT[8:], LENT + b"\xff"):
                with self.assertRaisesRegex(NoTables, "no names in the flat form"):
                    tables.lend_names(wrong)
                self.assertEqual(names(tables), ["Europe", "lent", "QX"])
            for wrong in (bytearray(LENT), memoryview(bytearray(LENT)), memoryview(LENT)[::2], "ICUTEXT1", 5, None):
                self.assertRaises(TypeError, tables.lend_names, wrong)
            self.assertEqual(names(tables), ["Europe", "lent", "QX"])
        self.assertRaises(Closed, tables.lend_names, LENT)
        self.assertRaises(Closed, tables.flat_names)

    def test_tables_in_use(self):
        with Tables.from_json(TABLES, SUPPLEMENT) as tables:
            tables.lend_names(LENT)
            tables.serve("en", ["en"])  # what is kept of it is let go
            tables.lend_names(LENT)
            for made in (tables.share(), tables.negotiator(["en"]), tables.switcher(["en"])):
                with made, self.assertRaisesRegex(TablesShared, "no other names"):
                    tables.lend_names(OTHER)
            self.assertEqual(tables.region_name("150", "en").name, "Europe")
            tables.lend_names(OTHER)

    def test_bytes_stay(self):
        with Tables.from_json(BARE) as tables:
            tables.lend_names(bytes(bytearray(LENT)))
            other = tables.share()
        del tables
        gc.collect()
        held = [bytes(len(LENT)) for _ in range(1000)]
        self.assertEqual(names(other), ["Europe", "lent", "QX"])
        self.assertEqual(len(held), 1000)

    def test_a_file_that_is_mapped(self):
        with tempfile.TemporaryFile() as file:
            file.write(LENT)
            file.flush()
            lent = mmap.mmap(file.fileno(), 0, access=mmap.ACCESS_READ)
        tables = Tables.from_json(BARE)
        tables.lend_names(lent)
        self.assertEqual(names(tables), ["Europe", "lent", "QX"])
        self.assertRaises(BufferError, lent.close)
        tables.close()
        del tables
        gc.collect()
        lent.close()

    def test_threads(self):
        with Tables.from_json(BARE) as tables:
            tables.lend_names(LENT)
            found = []
            threads = [threading.Thread(target=lambda: found.extend(names(tables) for _ in range(200))) for _ in range(4)]
            for each in threads:
                each.start()
            for each in threads:
                each.join()
            self.assertEqual((len(found), {tuple(each) for each in found}), (800, {("Europe", "lent", "QX")}))


def told(tables, call, line):
    """What a call gives, or how it refuses."""
    try:
        return getattr(tables, call)(line)
    except ValueError as refusal:
        return str(refusal)


if __name__ == "__main__":
    unittest.main()

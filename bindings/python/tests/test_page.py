"""The examples of README.md, here and at the top, over CLDR's data inside the package: what a line gives is told after it."""
import re
import unittest
from pathlib import Path

from icu_locale import NoCldr, Tables

HERE = Path(__file__).resolve()
PAGES = [HERE.parents[1] / "README.md", HERE.parents[3] / "README.md"]
BLOCK = re.compile(r"^```python\n(.*?)^```$", re.M | re.S)
# A line that gives something, which may be kept by a name, and what it gives.
LINE = re.compile(r"^( *)(\w+ = )?(\S.*?) {2,}# (.*)$", re.M)


class Printed:
    """What is printed, which is no text to be quoted."""

    def __init__(self, value):
        self.value = value

    def __repr__(self):
        return str(self.value)


def has_data():
    try:
        Tables.cldr().close()
    except NoCldr:
        return False
    return True


@unittest.skipUnless(has_data(), "the package has no data of CLDR inside")
class Page(unittest.TestCase):
    def test_examples(self):
        found = []

        def told(value, wanted):
            found.append(wanted)
            self.assertIn(wanted.replace(repr(value), "", 1)[:5], ("", ", by "), f"{value!r} is not {wanted}")
            return value

        names = {"told": told, "print": Printed}
        for block in (block for page in PAGES for block in BLOCK.findall(page.read_text(encoding="utf-8"))):
            exec(LINE.sub(lambda it: f"{it[1]}{it[2] or ''}told({it[3]}, {it[4]!r})", block), names)
        self.assertGreater(len(found), 20)


if __name__ == "__main__":
    unittest.main()

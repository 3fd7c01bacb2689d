"""The files of a CLDR `common` folder."""
import xml.etree.ElementTree as ElementTree
from functools import lru_cache
from pathlib import Path

from .._refusals import NoCldr

PACKAGE = "unicode-cldr-core"
DEBIAN_COMMON = Path("/usr/share/unicode/cldr/common")


class Common:
    """A CLDR `common` folder, of any version."""

    def __init__(self, folder):
        self.folder = Path(folder)

    def path(self, name):
        """The path of a file that has to be there."""
        path = self.folder / name
        if not path.is_file():
            raise NoCldr(f"no file {path}; the folder is to be CLDR's `common`, as Debian's package {PACKAGE} has it")
        return path

    def text(self, name):
        return self.path(name).read_text(encoding="utf-8")

    @lru_cache(maxsize=16)
    def document(self, name):
        """The root element of an XML file."""
        try:
            return ElementTree.parse(self.path(name)).getroot()
        except ElementTree.ParseError as fault:
            raise NoCldr(f"{self.folder / name} is no XML: {fault}") from fault

    def has(self, name):
        return (self.folder / name).is_file()

    def names(self, folder):
        """The names of the XML files of a folder in it, in order; none where there is no such folder."""
        return sorted(path.name for path in (self.folder / folder).glob("*.xml"))

    def has_locale(self, name):
        return self.has(f"main/{name}.xml")

    def locale(self, name):
        """The file of a locale, by its name in CLDR."""
        return self.document(f"main/{name}.xml")

"""Puts the version, the library and CLDR's data into the package; pyproject.toml says the rest.

The library is the one that `make c` leaves in out/c, or that the variable ICU_LOCALE_LIBRARY names. Where that is empty,
none is put in, and the package takes the one of the system. The variable ICU_LOCALE_SYSTEM names the system of a library
that is for another one, as linux_aarch64. The data is what tools/package-data has left in out/data.
"""
import os
from pathlib import Path

from setuptools import setup
from setuptools.command.build_py import build_py
from setuptools.dist import Distribution

try:
    from setuptools.command.bdist_wheel import bdist_wheel
except ImportError:  # before setuptools 70.1
    from wheel.bdist_wheel import bdist_wheel

TOP = Path(__file__).resolve().parents[2]
VERSION = TOP / "VERSION"
LIBRARY = os.environ.get("ICU_LOCALE_LIBRARY", str(TOP / "out" / "c" / "libicu_locale.so.0"))
DATA = TOP / "out" / "data"


class Files(build_py):
    """The files of the package, with those of the repository."""

    def run(self):
        super().run()
        package = Path(self.build_lib) / "icu_locale"
        self.copy_file(str(VERSION), str(package / "VERSION"))
        if LIBRARY:
            if not Path(LIBRARY).exists():
                raise SystemExit(f"there is no {LIBRARY}; make c at the top of the repository makes it")
            self.copy_file(LIBRARY, str(package / "libicu_locale.so.0"), preserve_mode=False)
        if DATA.exists():
            self.copy_tree(str(DATA), str(package / "data"), preserve_mode=False)


class Wheel(bdist_wheel):
    """A wheel for any Python of one system, since the library is no module of Python."""

    def get_tag(self):
        return ("py3", "none", os.environ.get("ICU_LOCALE_SYSTEM") or super().get_tag()[2])  # what is last names the system


class WithLibrary(Distribution):
    """A package that holds what is built for one system."""

    def has_ext_modules(self):
        return bool(LIBRARY)


setup(version=VERSION.read_text(encoding="ascii").strip(), distclass=WithLibrary,
      cmdclass={"build_py": Files, "bdist_wheel": Wheel})

"""Test helpers: what the tests of the tables want. The package that makes the tables is bindings/python/icu_locale/cldr."""

"""A locale as an object."""
import copy
import pickle
import unittest

from icu_locale import InvalidLanguage, InvalidSubtag, LineRefused, Locale, Tables
from icu_locale.example import TABLES


class Locales(unittest.TestCase):
    def test_parts(self):
        """The parts of UTS #35 Part 1, section 3.2, each in its place."""
        locale = Locale("EN_latn_us_posix-u-attr-kn-ca-islamic-civil-t-ja-m0-ungegn-a-foo-bar-x-my-own")
        self.assertEqual((locale.language, locale.script, locale.region, locale.variants), ("en", "Latn", "US", ("posix",)))
        self.assertEqual((locale.attributes, dict(locale.keywords)), (("attr",), {"ca": "islamic-civil", "kn": ""}))
        self.assertEqual((locale.transform_language, dict(locale.fields)), ("ja", {"m0": "ungegn"}))
        self.assertEqual((dict(locale.extensions), locale.private_use), ({"a": "foo-bar"}, "my-own"))
        self.assertEqual((locale.base_name, locale.calendar, locale.hour_cycle), ("en-Latn-US-posix", "islamic-civil", None))
        self.assertEqual(str(locale), "en-Latn-US-posix-a-foo-bar-t-ja-m0-ungegn-u-attr-ca-islamic-civil-kn-x-my-own")

    def test_values(self):
        """Equal parts are equal locales, in order, as keys, copied and pickled."""
        one, other = Locale("zh-TW-u-nu-hanidec-ca-roc"), Locale(b"ZH_tw-u-ca-roc-nu-hanidec")
        self.assertEqual((one, hash(one), {one: 1}[other]), (other, hash(other), 1))
        self.assertNotEqual(one, Locale("zh-TW"))
        self.assertNotEqual(one, str(one))
        self.assertEqual([str(it) for it in sorted([Locale("fr"), Locale("de")])], ["de", "fr"])
        self.assertEqual((pickle.loads(pickle.dumps(one)), copy.deepcopy(one)), (one, one))
        self.assertEqual(repr(one), "Locale('zh-TW-u-ca-roc-nu-hanidec')")

    def test_unchanged(self):
        locale = Locale("en")
        with self.assertRaises(AttributeError):
            locale.region = "US"
        with self.assertRaises(TypeError):
            locale.keywords["ca"] = "roc"

    def test_replace(self):
        locale = Locale("de-AT-u-co-phonebk")
        self.assertEqual(str(locale.replace(region=None, script="latn")), "de-Latn-u-co-phonebk")
        self.assertEqual(str(locale.replace(keywords={}, private_use="a-b")), "de-AT-x-a-b")
        self.assertEqual(locale.replace(), locale)
        for wrong, parts in ((InvalidSubtag, {"region": "Austria"}), (InvalidLanguage, {"language": ""}), (TypeError, {"land": "AT"})):
            with self.assertRaises(wrong):
                locale.replace(**parts)

    def test_refused(self):
        for text, wrong in (("", InvalidLanguage), ("en-u", InvalidSubtag), ("en-Latm1-US", InvalidSubtag)):
            with self.assertRaises(wrong):
                Locale(text)
        self.assertEqual(Locale.parse("i-klingon", syntax="bcp47"), Locale("tlh"))

    def test_where(self):
        for text, where in (
                ("en-US-Latn", (6, 10, "Latn")), ("", (0, 0, "")), ("e-US", (0, 1, "e")), ("de-u", (4, 4, "")),
                ("en-a-bb-a-cc", (8, 9, "a")), ("de_DE-1996-1996", (11, 15, "1996")), (b"en-\xff", (3, 4, "\ufffd")),
                ("en-\xe9-US", (3, 4, "\xe9"))):
            with self.assertRaises(LineRefused) as refused:
                Locale(text)
            refusal = refused.exception
            self.assertEqual(((refusal.start, refusal.end, refusal.subtag), refusal.text), (where, text))

    def test_elsewhere(self):
        with self.assertRaises(LineRefused) as refused:
            Locale.parse("i-klingo", syntax="bcp47")
        self.assertEqual((refused.exception.start, refused.exception.end, refused.exception.subtag), (0, 8, None))

    def test_taken_by_calls(self):
        with Tables.from_json(TABLES) as tables:
            self.assertEqual(tables.maximize(Locale("zh-TW")), "zh-Hant-TW")


if __name__ == "__main__":
    unittest.main()

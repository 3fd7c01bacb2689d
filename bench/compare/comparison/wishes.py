"""What readers ask for, and what sites have: lists drawn from a fixed sequence, and headers as browsers send them."""
import itertools
import random
import sys

from .programs import COMMON, ROOT

sys.path.append(str(ROOT / "bindings" / "python"))

from icu_locale.cldr.completion import known  # noqa: E402
from icu_locale.cldr.source import Common  # noqa: E402
from icu_locale.cldr.subtags import read_locale  # noqa: E402

SEED, ASKED_OF_LIST = 44, 4
# What sites have: 36 locales.
SITES = ("en en-GB de fr es es-419 it pt-BR pt-PT nb sv da fi nl pl cs hu ro el bg uk ru tr ar he hi th vi ja ko "
         "zh-Hans zh-Hant sr sr-Latn hr id").split()
# What readers have set in their browsers: 96 locales.
READERS = ("en-US en-GB en-AU en-CA en-IN en-IE en-NZ en-ZA de-DE de-AT de-CH fr-FR fr-BE fr-CA fr-CH es-ES es-MX es-AR "
           "es-CO es-US it-IT it-CH pt-BR pt-PT nl-NL nl-BE sv-SE sv-FI da-DK nb-NO nn-NO fi-FI is-IS pl-PL cs-CZ sk-SK "
           "hu-HU ro-RO ro-MD bg-BG el-GR tr-TR uk-UA ru-RU be-BY sr-RS sr-ME hr-HR bs-BA sl-SI mk-MK sq-AL lt-LT lv-LV "
           "et-EE ar-SA ar-EG ar-MA he-IL fa-IR ur-PK hi-IN bn-BD ta-IN te-IN mr-IN gu-IN pa-IN ml-IN kn-IN si-LK ne-NP "
           "th-TH vi-VN id-ID ms-MY fil-PH ja-JP ko-KR zh-CN zh-TW zh-HK zh-SG ka-GE hy-AM az-AZ kk-KZ uz-UZ mn-MN sw-KE "
           "af-ZA zu-ZA am-ET ca-ES gl-ES eu-ES").split()
# Headers that few send.
RARE = ["", "*", "en", "*;q=0.5, de;q=0.8", "en;q=0, de", "de, en-GB;q=0", "zh-cn,zh;q=0.5", "iw,he;q=0.9", "in-ID",
        "no,nb;q=0.9", "sh-RS, sh;q=0.9, en;q=0.1", "EN-us;Q=0.7 , FR ; q=0.9", "en-US-u-hc-h23, de;q=0.5",
        "de;q=0.1234, fr;q=0.1", "english, german;q=0.5", "zh-Hant-HK-x-mine", "de;q=2, fr"]
PATTERNS = ["{own},{language};q=0.9,en-US;q=0.8,en;q=0.7", "{own},{language};q=0.8,en-US;q=0.5,en;q=0.3", "{lower}",
            "{own}, {other};q=0.9, {language};q=0.8, {second};q=0.6, *;q=0.5"]
RANGES = "{own},{other};q=0.9,{language};q=0.8,{second};q=0.7,en;q=0.5"


def language_of(tag):
    return tag.split("-")[0]


def header(pattern, own, sequence):
    """A header of a pattern, for a reader of a locale, who may have drawn others too."""
    other, second = sequence.sample(READERS, 2)
    return pattern.format(own=own, lower=own.lower(), language=language_of(own), other=other, second=second)


def headers():
    """Headers as browsers send them, and rare ones: 401."""
    sequence = random.Random(SEED)
    return [header(pattern, own, sequence) for pattern in PATTERNS for own in READERS] + RARE


def of_one_language(count):
    """So many locales of one language, each with a variant of its own."""
    return [f"en-v{number:04}" for number in range(count)]


def headers_of_five(count):
    """Headers of five ranges."""
    sequence = random.Random(SEED)
    return [header(RANGES, sequence.choice(READERS), sequence) for _ in range(count)]


class Locales:
    """The locales of CLDR, without variants, its regions, and languages that are near by its rules."""

    def __init__(self, supplement):
        common = Common(COMMON)
        names = sorted(path.stem.replace("_", "-") for path in (common.folder / "main").glob("*.xml"))
        self.all = [name for name in names if str(read_locale(name)) == name]
        self.regions = list(known(common, "region", ("regular", "macroregion")))
        self.by_language = {language: list(group) for language, group in itertools.groupby(self.all, language_of)}
        self.several = [language for language, held in self.by_language.items() if len(held) > 3]
        self.near = {language: [rule["language"] for rule in rules.get("language", [])]
                     for language, rules in supplement["matching"]["rules"].items()}
        self.asking = [language for language, others in self.near.items() if others]

    def of_languages(self, sequence, languages, most):
        """Some locales of each language, and itself where CLDR has none of it."""
        for language in languages:
            held = self.by_language.get(language, [language])
            yield from sequence.sample(held, min(len(held), sequence.randint(1, most)))

    def available(self, sequence):
        """What is available: of a few languages, of all, of what sites have, or of languages that are near to others."""
        kind = sequence.random()
        if kind < 0.4:
            found = list(self.of_languages(sequence, sequence.sample(self.several, sequence.randint(1, 5)), 5))
        elif kind < 0.6:
            found = sequence.sample(self.all, sequence.randint(1, 40))
        elif kind < 0.8:
            found = sequence.sample(SITES, sequence.randint(5, len(SITES)))
        else:
            languages = [sequence.choice(self.near[it]) for it in sequence.sample(self.asking, sequence.randint(1, 8))]
            found = list(self.of_languages(sequence, languages, 2))
        found = list(dict.fromkeys(found))
        sequence.shuffle(found)
        return found

    def request(self, sequence, available):
        """A request: near to something available, or anything."""
        kind, like = sequence.random(), language_of(sequence.choice(available))
        if kind < 0.45:
            return sequence.choice(self.by_language.get(like, [like]))
        if kind < 0.65:
            return f"{like}-{sequence.choice(self.regions)}"
        if kind < 0.7:
            return sequence.choice(available)
        if kind < 0.75:
            near = [language for language in self.asking if like in self.near[language]] or self.asking
            return sequence.choice(self.by_language.get(sequence.choice(near), near))
        return sequence.choice(self.all)

    def drawn(self, lists):
        """So many lists of what is available, each with some lists of requests."""
        sequence = random.Random(SEED)
        for _ in range(lists):
            available = self.available(sequence)
            counts = sequence.choices([1, 2, 3, 4], weights=[4, 3, 2, 1], k=ASKED_OF_LIST)
            yield available, [" ".join(self.request(sequence, available) for _ in range(count)) for count in counts]

    def any(self, sequence):
        """A locale of CLDR, or a language of CLDR in any region."""
        if sequence.random() < 0.5:
            return sequence.choice(self.all)
        return f"{sequence.choice(list(self.by_language))}-{sequence.choice(self.regions)}"

    def many(self, count):
        """So many locales that are available, each another one."""
        sequence, found = random.Random(SEED), {}
        while len(found) < count:
            found[self.any(sequence)] = None
        return list(found)

    def requests(self, count):
        """So many requests of one locale."""
        sequence = random.Random(SEED + 1)
        return [self.any(sequence) for _ in range(count)]

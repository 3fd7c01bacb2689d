"""Annex C of UTS #35 Part 1 as it is written, for tests: CLDR's rules in their order, one after another.

It shares nothing with `aliases.py` but the reading of identifiers, and has no tables.
"""
import random

from icu_locale.cldr.likely import likely_rows
from icu_locale.cldr.subtags import UNKNOWN_LANGUAGE, Identifier, read_identifier

SINGLE = (("L", "language"), ("S", "script"), ("R", "region"))
SIGN_LANGUAGE = "sgn"
REGION_VARIANT = "aaland"


def fields(identifier):
    """The subtags of an identifier, each with the letter of its field; `und` is none."""
    single = [(letter, getattr(identifier, name)) for letter, name in SINGLE]
    found = [(letter, subtag) for letter, subtag in single if subtag and subtag != UNKNOWN_LANGUAGE]
    return found + [("V", variant) for variant in identifier.variants]


def rank(rule):
    """The place of a rule: more subtags first, then by the fields, then by the subtags."""
    found = fields(rule[0])
    return -len(found), [letter for letter, _ in found], [subtag for _, subtag in found]


def replaced(source, rule, replacement):
    """A source by a rule: a field of the rule becomes the replacement's, and another is filled in where it is absent."""
    own, ruled, given = (dict(fields(identifier._replace(variants=()))) for identifier in (source, rule, replacement))
    single = {name: given.get(letter) if letter in ruled else own.get(letter, given.get(letter))
              for letter, name in SINGLE}
    variants = {*source.variants} - {*rule.variants} | {*replacement.variants}
    return Identifier(single["language"] or UNKNOWN_LANGUAGE, single["script"], single["region"],
                      tuple(sorted(variants)))


class AnnexC:
    """The rules of a CLDR folder that are of identifiers, in their order."""

    BEFORE = {"languageAlias": "", "scriptAlias": "und_", "territoryAlias": "und_", "variantAlias": "und_"}

    def __init__(self, common):
        self.likely = dict(likely_rows(common))
        rows = common.document("supplemental/supplementalMetadata.xml").find(".//alias")
        read = [self.rule(row) for row in rows if row.tag in self.BEFORE]
        self.rules = sorted((rule for rule in read if rule[0] and None not in rule[1]), key=rank)
        # the places of the rules that have a field first, since a rule can match only where that is had
        self.places = {}
        for place, (rule, _) in enumerate(self.rules):
            self.places.setdefault(fields(rule)[0], []).append(place)

    def rule(self, row):
        """What a rule matches, and what it gives: several only where a region became several."""
        before = self.BEFORE[row.tag]
        return (read_identifier(before + row.get("type")),
                [read_identifier(before + word) for word in row.get("replacement").split()])

    def likely_region(self, identifier):
        """The likely region of a language and a script."""
        language, script, *_ = identifier
        found = self.likely.get(f"{language}_{script}") or self.likely.get(language, "")
        return found.split("_")[-1]

    def step(self, identifier):
        """The identifier by the first rule that matches and changes it, or None."""
        held = set(fields(identifier))
        for place in sorted(place for field in held for place in self.places.get(field, ())):
            rule, replacements = self.rules[place]
            if held.issuperset(fields(rule)):
                region = self.likely_region(identifier)
                chosen = [each for each in replacements if each.region == region] or replacements
                if (found := replaced(identifier, rule, chosen[0])) != identifier:
                    return found
        return None

    def canonical(self, identifier):
        """The end of the rules."""
        while found := self.step(identifier):
            identifier = found
        return identifier

    def samples(self, count):
        """Identifiers of subtags that rules speak of: each language and each sign language by region with each variant,
        and a fixed random sequence."""
        named = {letter: sorted({subtag for rule, _ in self.rules for field, subtag in fields(rule) if field == letter})
                 for letter in "LSRV"}
        found = [Identifier(language, variants=(variant,)) for language in named["L"] for variant in named["V"]]
        signed = sorted(rule.region for rule, _ in self.rules if rule.language == SIGN_LANGUAGE and rule.region)
        found += [Identifier(SIGN_LANGUAGE, region=region, variants=(variant,))
                  for region in signed for variant in named["V"]]
        sequence = random.Random(35)
        for _ in range(count):
            variants = sequence.sample(named["V"], sequence.randrange(4))
            found.append(Identifier(
                sequence.choice([UNKNOWN_LANGUAGE, *named["L"]]),
                sequence.choice([None, "Latn", *named["S"]]),
                sequence.choice([None, *named["R"]]),
                tuple(sorted(variants)),
            ))
        return found


def is_out_of_reach(identifier):
    """A sign language by region, with a variant that becomes a region: the program asks rules of variants before it
    (docs/CLDR.md)."""
    return (identifier.language == SIGN_LANGUAGE and identifier.region is not None
            and REGION_VARIANT in identifier.variants)

"""Rules of canonicalization (UTS #35 Part 1, Annex C).

They are the elements of `alias` in supplemental/supplementalMetadata.xml.
"""
from .subtags import UNKNOWN_LANGUAGE, Identifier, read_identifier, read_subtag

NO_TYPE = "aliases: no identifier that the program reads is of this form, so the rule could match none"
NO_REPLACEMENT = "aliases: what the rule gives is no identifier that the program could hold"
NO_PLACE = "aliases: no table has a place for rules of this form"
FIRST_ALONE = "aliases: a subdivision that became several; the row gives the first"
ADDED = "aliases: rows of `language_variants` added, closed under language aliases as Annex C has them"
# A region as a subdivision is spelled so (UTS #35 Part 1, section 3.6.5).
WHOLE_REGION = "zzzz"
MAPS = ("sgn_region", "language_len2", "language_len3", "script", "region_alpha", "region_num", "complex_region",
        "variant", "subdivision")


class Aliases:
    """The rows of the table of aliases."""

    def __init__(self, account):
        self.account = account
        self.maps = {name: {} for name in MAPS}
        self.language = {}
        self.language_variants = {}
        # what each language alone is replaced by
        self.languages = {}

    def add_language(self, source, target):
        """A `languageAlias`: of a language alone, of a sign language by region, of variants, or of subtags."""
        rule, replacement = read_identifier(source), read_identifier(target)
        if rule is None:
            self.account.note(NO_TYPE, f"{source} to {target}")
        elif replacement is None:
            self.account.note(NO_REPLACEMENT, f"{source} to {target}")
        elif rule.is_bare_language() and rule.language != UNKNOWN_LANGUAGE:
            self.languages[rule.language] = replacement
            self.maps[f"language_len{len(rule.language)}"][rule.language] = str(replacement)
        elif is_sign_language(rule) and replacement.is_bare_language():
            self.maps["sgn_region"][rule.region] = replacement.language
        elif not rule.variants:
            self.language[rule] = replacement
        elif not (rule.script or rule.region):
            self.language_variants[rule] = replacement
        else:
            self.account.note(NO_PLACE, f"{source} to {target}")

    def add_subtag(self, name, kind, source, target):
        """A `scriptAlias` or a `variantAlias`."""
        subtag, replacement = read_subtag(kind, source), read_subtag(kind, target)
        if subtag and replacement:
            self.maps[name][subtag] = replacement
        else:
            self.account.note(NO_REPLACEMENT if subtag else NO_TYPE, f"{source} to {target}")

    def add_territory(self, source, target):
        """A `territoryAlias`: of letters or of digits, to one region or to several."""
        region, regions = read_subtag("region", source), [read_subtag("region", word) for word in target.split()]
        if region is None:
            self.account.note(NO_TYPE, f"{source} to {target}")
        elif not regions or None in regions:
            self.account.note(NO_REPLACEMENT, f"{source} to {target}")
        elif len(regions) > 1:
            self.maps["complex_region"][region] = regions
        else:
            self.maps["region_alpha" if region.isalpha() else "region_num"][region] = regions[0]

    def add_subdivision(self, source, target):
        """A `subdivisionAlias`: to a subdivision, or to a region, which as a value has `zzzz` after it."""
        subdivision, (first, *others) = read_subtag("subdivision", source), target.lower().split()
        value = first + WHOLE_REGION if read_subtag("region", first) and len(first) == 2 else first
        if others:
            self.account.note(FIRST_ALONE, f"{source} to {target}")
        if subdivision and read_subtag("subdivision", value):
            self.maps["subdivision"][subdivision] = value
        else:
            self.account.note(NO_REPLACEMENT if subdivision else NO_TYPE, f"{source} to {target}")

    def first_region(self, region):
        """What a region is now: the first one of several, and itself where no rule speaks of it."""
        several = self.maps["complex_region"].get(region, [region])
        return self.maps["region_alpha"].get(region, several[0])

    def close(self):
        """Closes the rules of variants under the aliases of a language alone, until none is added.

        Annex C replaces a language before it looks for variants alone. The program asks `language_variants` before
        the aliases of a language, so what Annex C reaches by both is one rule here.
        """
        while added := self.missing_rules():
            for rule, replacement in added.items():
                self.language_variants[rule] = replacement
                self.account.note(ADDED, f"{rule} to {replacement}")

    def missing_rules(self):
        """The rules of variants after one alias of a language that are not there yet."""
        found = {}
        for rule, replacement in self.language_variants.items():
            for language, meant in self.languages.items():
                source = Identifier(language, variants=rule.variants)
                reached = meant._replace(variants=tuple(sorted({*meant.variants, *rule.variants})))
                if meets(rule, replacement, meant) and source not in self.language_variants:
                    found.setdefault(source, replaced(reached, rule, replacement))
        return found

    def table(self):
        """The table of a file: rules of more fields come first, then by the fields, then by their subtags."""
        rules = sorted(self.language_variants.items(), key=lambda row: order(row[0]))
        plain = sorted(self.language.items(), key=lambda row: order(row[0]))
        return {
            "language_variants": [[rule.language, "-".join(rule.variants), str(to)] for rule, to in rules],
            "language": [[str(rule), str(to)] for rule, to in plain],
        } | {name: dict(sorted(rows.items())) for name, rows in self.maps.items()}


def is_sign_language(rule):
    """`sgn` with a region, and nothing else."""
    return rule.region is not None and rule == Identifier("sgn", region=rule.region)


def meets(rule, replacement, meant):
    """A rule of variants matters after an alias: it has the language, or fills what the alias fills already."""
    if rule.language != UNKNOWN_LANGUAGE:
        return rule.language == meant.language
    return bool((replacement.script and meant.script) or (replacement.region and meant.region))


def replaced(source, rule, replacement):
    """A source by a rule that matches it and has no script and no region (Annex C, definition of replacement)."""
    takes_language = rule.language != UNKNOWN_LANGUAGE or source.language == UNKNOWN_LANGUAGE
    left = set(source.variants) - set(rule.variants)
    return Identifier(
        replacement.language if takes_language else source.language,
        source.script or replacement.script,
        source.region or replacement.region,
        tuple(sorted(left | set(replacement.variants))),
    )


def order(rule):
    """The place of a rule among others (Annex C, preprocessing): more subtags first, then fields, then subtags."""
    subtags = subtags_by_field(rule)
    return -len(subtags), [field for field, _ in subtags], [subtag for _, subtag in subtags]


def subtags_by_field(rule):
    """The subtags of a rule, each with the letter of its field; `und` is none."""
    single = [("L", rule.language if rule.language != UNKNOWN_LANGUAGE else None), ("S", rule.script),
              ("R", rule.region)]
    return [(field, subtag) for field, subtag in single if subtag] + [("V", variant) for variant in rule.variants]


def read_aliases(common, account):
    """The rules of CLDR that the tables have a place for, closed under language aliases."""
    alias = common.document("supplemental/supplementalMetadata.xml").find(".//alias")
    found = Aliases(account)
    adds = {
        "languageAlias": found.add_language,
        "scriptAlias": lambda source, target: found.add_subtag("script", "script", source, target),
        "territoryAlias": found.add_territory,
        "variantAlias": lambda source, target: found.add_subtag("variant", "variant", source, target),
        "subdivisionAlias": found.add_subdivision,
    }
    for row in alias if alias is not None else ():
        if row.tag in adds:
            adds[row.tag](row.get("type"), row.get("replacement"))
        else:
            account.note(f"aliases: elements `{row.tag}`, which speak of no identifier", row.get("type") or "one")
    found.close()
    return found

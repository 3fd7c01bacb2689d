"""Rules that may replace what likely subtags fill in, so that the key of a locale need not be its own key."""
from .subtags import UNKNOWN_LANGUAGE

UNSTABLE = "keys: rules that may replace what likely subtags fill in; where they do, the key of a locale is not its own"
SIGN = "sgn"


def known_language(rule):
    """The language of a rule, if it has one."""
    return rule.language if rule.language != UNKNOWN_LANGUAGE else None


def filled_in(likely):
    """The subtags that rows fill in, by class. What the key of a row has, the identifier had before, and no rule took."""
    found = {kind: {subtag} for kind, subtag in zip(("language", "script", "region"), likely.und)}
    for rows in likely.maps.values():
        for value in rows.values():
            for kind, subtag in value.items():
                found[kind].add(subtag)
    return found


def is_covered(rule, rules):
    """Some rule for `und` matches whatever the rule matches."""
    return any(not known_language(other) and other.script in (None, rule.script) and other.region in (None, rule.region)
               and set(other.variants) <= set(rule.variants) for other in rules)


def is_unstable(rule, rules, found):
    """The rule reads what may be filled in, and no rule for `und` would have been applied before."""
    is_of_language = known_language(rule) in found["language"] and not is_covered(rule, rules)
    return is_of_language or rule.script in found["script"] or rule.region in found["region"]


def unstable_rules(likely, aliases):
    """Each such rule, as a text. Where there is none, each key is its own, if any identifier means what it means."""
    found = filled_in(likely)
    for name, rows in aliases.maps.items():
        kind = "language" if name == "sgn_region" else name.split("_")[0]
        for subtag, to in rows.items() if kind in found else ():
            if (SIGN if name == "sgn_region" else subtag) in found[kind]:
                yield f"{subtag} to {to}"
    for region, several in aliases.maps["complex_region"].items():
        if region in found["region"]:
            yield f"{region} to {' or '.join(several)}"
    for rules in (aliases.language, aliases.language_variants):
        yield from (f"{rule} to {to}" for rule, to in rules.items() if is_unstable(rule, rules, found))

"""The supplement of the tables: the parents of locales (UTS #35 Part 1, section 4.2, Parent Locales), the rules by which
a reader is served the nearest locale (section 4.4, Language Matching), the aliases of values, which `values.py` reads, the
table of validity, which `validity.py` reads, and what parts of extensions are called, which `extension_names.py` reads.

A parent is written under the key by which chains come to it: without a script that the language and the region imply, but
with the script where it depends on the region, as `zh-Hant-HK`.

A rule is written at its desired language, and once more the other way round where CLDR says that it goes both ways. A set
of regions is written with the regions that its groups contain. A group of regions, as `001`, stands for one region of each
kind that the rules tell apart, since a distance from a group is the greatest to what it contains.
"""
import re

from .extension_names import ExtensionNames
from .inheritance import ROOT, Inheritance
from .likely import read_likely
from .account import Account
from .source import NoCldr
from .subtags import UNKNOWN_LANGUAGE, UNKNOWN_REGION, UNKNOWN_SCRIPT, Identifier, read_locale, read_subtag
from .validity import validity
from .values import value_aliases

TO_ROOT = "parents: those that are the root, to which a chain comes anyhow"
NO_LOCALE = "parents: locales or parents of another form than a language, a script if any and a region if any"
NO_RULE = "match rules: those of a form that the tables have no place for"
NO_PARADIGM = "match rules: paradigm locales of another form than a language, a script if any and a region if any"
LEVELS = ("language", "script", "region")
ANY = "*"


def supplement(common, account, locales=(), without=()):
    """The supplement of a CLDR folder, with what parts of extensions are called in the languages of some locales."""
    found = {"parents": parents(common, account), "matching": matching(common, account)} | value_aliases(common, account)
    found |= validity(common, account)
    return found | names_of_extensions(common, locales, account, without) if locales else found


def names_of_extensions(common, locales, account, without=()):
    """The member of what parts of extensions are called, by locale."""
    names = ExtensionNames(common, Inheritance(common), account, without)
    tables = {str(locale): names.of(locale) for locale in locales}
    return {"extension_names": {locale: table for locale, table in tables.items() if table}}


# ---- parents


class Keys:
    """The keys by which chains come to what is said of a locale."""

    def __init__(self, common):
        self.maps = read_likely(common, Account()).maps

    def script(self, locale):
        """The likely script of a locale."""
        if locale.script:
            return locale.script
        for name, key in (("language_region", f"{locale.language}-{locale.region}"), ("language", locale.language)):
            row = self.maps[name].get(key)
            if row:
                return row["script"]
        return None

    def key(self, locale):
        """Without a script that is implied, but with one that depends on the region."""
        script = None if locale.script == UNKNOWN_SCRIPT else locale.script
        region = None if locale.region == UNKNOWN_REGION else locale.region
        normal = Identifier(locale.language, script, region)
        if script and self.script(normal._replace(script=None)) == script:
            normal = normal._replace(script=None)
        own = self.script(normal)
        depends = not normal.script and region and normal.language != UNKNOWN_LANGUAGE
        if depends and own and self.script(normal._replace(region=None)) != own:
            return normal._replace(script=own)
        return normal


def parents(common, account):
    """Each locale that has a parent of its own, and that parent."""
    keys, found = Keys(common), {}
    for name, parent in Inheritance(common).parents.items():
        locale, above = read_locale(name), read_locale(parent)
        if parent == ROOT:
            account.note(TO_ROOT, name)
        elif locale is None or above is None:
            account.note(NO_LOCALE, f"{name} to {parent}")
        else:
            found[str(keys.key(locale))] = str(keys.key(above))
    return dict(sorted(found.items()))


# ---- match rules


def matching(common, account):
    """The rules of language matching, what holds where none fits, groups of regions and paradigm locales."""
    matches = common.document("supplemental/languageInfo.xml").find(".//languageMatches[@type='written_new']")
    if matches is None:
        raise NoCldr("languageInfo.xml has no matches by distance, those of the type `written_new`")
    groups, sets = groups_of(common), sets_of(common, matches)
    others, rules, patterns = [], {}, []
    note_uneven(matches, account)
    for count, level in enumerate(LEVELS, 1):
        for pair, distance, is_one_way in rows_of(matches, count):
            if all(subtag == ANY for form in pair for subtag in form):
                others.append(distance)
                continue
            forms = [read_form(form, sets) for form in pair]
            if None in forms:
                account.note(NO_RULE, " to ".join("_".join(form) for form in pair))
                continue
            patterns += [pattern for _, pattern in forms]
            ways = [forms] if is_one_way or forms[0] == forms[1] else [forms, forms[::-1]]
            for desired, supported in ways:
                rules.setdefault(desired[0], {}).setdefault(level, []).append(rule(desired, supported, distance))
    if len(others) != len(LEVELS):
        raise NoCldr("languageInfo.xml does not say how far languages, scripts and regions are apart that no match names")
    return {
        "others": others,
        "paradigms": paradigms(matches, account),
        "macros": macros(groups, patterns),
        "rules": dict(sorted(rules.items())),
    }


def groups_of(common):
    """Which regions each group of regions contains."""
    found = {}
    for containment in common.document("supplemental/supplementalData.xml").iter("territoryContainment"):
        for row in containment.iter("group"):
            found.setdefault(row.get("type"), []).extend(row.get("contains").split())
    return found


def rows_of(matches, count):
    """The rows of so many subtags: what is desired and what is there, how far they are apart, and whether it holds one
    way alone."""
    for row in matches.iter("languageMatch"):
        pair = [row.get(name).split("_") for name in ("desired", "supported")]
        if all(len(subtags) == count for subtags in pair):
            yield pair, int(row.get("distance")), row.get("oneway") == "true"


def note_uneven(matches, account):
    """Says which rules have two forms of unlike levels, which no level of the tables holds."""
    for row in matches.iter("languageMatch"):
        forms = [row.get(name) for name in ("desired", "supported")]
        if forms[0].count("_") != forms[1].count("_"):
            account.note(NO_RULE, " to ".join(forms))


def paradigms(matches, account):
    """The paradigm locales."""
    named, found = matches.find("paradigmLocales"), []
    for name in named.get("locales").split() if named is not None else []:
        locale = read_locale(name)
        if locale is None:
            account.note(NO_PARADIGM, name)
        else:
            found.append(str(locale))
    return found


def sets_of(common, matches):
    """The sets of regions by their variables: the regions that are no groups."""
    groups = groups_of(common)
    return {row.get("id").lstrip("$"): sorted(members(groups, row.get("value"))) for row in matches.iter("matchVariable")}


def members(groups, value):
    """The regions of a variable's value: with those after a `+`, and without those after a `-`."""
    found = set()
    for sign, region in re.findall(r"([+-]?)(\w+)", value):
        part = leaves(groups, [region])
        found = found - part if sign == "-" else found | part
    return found


def leaves(groups, regions):
    """Some regions, and what the groups among them contain, without the groups."""
    found = set()
    waiting = list(regions)
    while waiting:
        region = waiting.pop()
        if region not in found:
            found.add(region)
            waiting += groups.get(region, ())
    return found - set(groups)


def read_form(form, sets):
    """The language of a form, and what a rule says of its script and region; or None."""
    language, script, region = (*form, ANY, ANY)[:3]
    pattern = {}
    if script != ANY:
        pattern["script"] = read_subtag("script", script)
    if region.startswith("$"):
        pattern["not" if "!" in region else "in"] = sets.get(region.lstrip("$!"))
    elif region != ANY:
        pattern["in"] = [read_subtag("region", region)]
    read = read_subtag("language", language)
    return None if read is None or None in pattern.values() or [None] in pattern.values() else (read, pattern)


def rule(desired, supported, distance):
    """A rule, at its desired language."""
    found = {"language": supported[0], "distance": distance, "desired": desired[1], "supported": supported[1]}
    return {name: value for name, value in found.items() if value != {}}


def macros(groups, patterns):
    """Each group of regions, and of what it contains the first region of each kind that the patterns tell apart."""
    sets = sorted({tuple(pattern[name]) for pattern in patterns for name in ("in", "not") if name in pattern})
    found = {}
    for group in groups:
        kinds = {}
        for region in sorted(leaves(groups, [group])):
            kinds.setdefault(tuple(region in members for members in sets), region)
        if read_subtag("region", group) == group and kinds:
            found[group] = sorted(kinds.values())
    return dict(sorted(found.items()))

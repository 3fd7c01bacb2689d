"""What the program and ICU4C answer over CLDR's own lists, and why they differ where they do."""
import json
import subprocess
from collections import Counter

from . import subtags
from .asking import Comparison, answers, macro_regions, parsed, spelled, table_of_counts, table_of_kinds, with_region
from .inputs import LOCALES
from .programs import COMMON

# So many of the realistic identifiers are asked of unic-langid.
LANGID_LINES = 20_000
SUITE = "testData/localeIdentifiers/localeCanonicalization.txt"
# A language that every locale names, and no locale names together with a script or a region.
CARRIER = "it"
KINDS = {
    "reading": ("read as another tag",
                "ICU replaces what is deprecated in a tag when it reads it; in its own form it answers as here."),
    "bare und": ("`und` alone",
                 "ICU fills it in from CLDR's row of `und`; here it stays, since it has no script and no region."),
    "macro region": ("macro regions",
                     "ICU replaces the region by that of the row; here maximizing replaces no subtag that is given."),
    "data": ("other data", "ICU's own row of this subtag is another one than that of this version of CLDR."),
    "root": ("`und` is the root", "ICU takes `und` for the locale `root`, and says so."),
    "brackets": ("brackets in brackets", "ICU makes round brackets square inside those of the pattern."),
    "data and brackets": ("both", "ICU's own row is another one, and its brackets are made square."),
    "unexplained": ("unexplained", ""),
}
LANGID_KINDS = {
    "reading": ("read by one alone",
                "unic-langid reads a language of 5 to 8 letters, and a variant of 4 letters; here both are refused."),
    "und": ("`und` that CLDR fills in", "unic-langid leaves it as it is: it has no such row."),
    "data": ("other data", "unic-langid's own maximal form of a key of the identifier is another one."),
    "unexplained": ("unexplained", ""),
}


def icu_rows(icu, *words):
    """The rows of ICU's own data, by kind and key."""
    ran = subprocess.run([*icu.words, *words], capture_output=True, text=True, check=True)
    rows = (line.split("\t") for line in ran.stdout.split("\n") if line)
    return {(kind, key): text for kind, key, text in rows}


def read_kind(ours, theirs, own):
    """Whether identifiers are the same, or would be but for ICU's reading of tags; own is ICU's answer without it."""
    if spelled(ours) == spelled(theirs):
        return None
    return "reading" if spelled(ours) == spelled(own) else "unexplained"


def maximal_kind(key, ours, theirs, row, own_row, macros):
    """Why maximal forms differ: row is that of CLDR, own_row that of ICU."""
    if key == "und":
        return "bare und" if spelled(theirs) == spelled(row) else "unexplained"
    if own_row != row and spelled(theirs) == spelled(own_row):
        return "data"
    region = key.split("_")[-1]
    if region in macros and with_region(ours, theirs.split("-")[-1]) == theirs and theirs == row.replace("_", "-"):
        return "macro region"
    return "unexplained"


def compare_maximal(program, icu, own, inputs):
    """The maximal form of every key of CLDR's likely subtags."""
    rows = {row.get("from"): row.get("to") for row in parsed("supplemental/likelySubtags.xml").iter("likelySubtag")}
    own_rows, macros = icu_rows(icu, "likely"), macro_regions()
    found = Comparison("maximal forms of the keys of CLDR's likely subtags", "maximal forms")
    asked = [answers(it, "maximize", rows, inputs) for it in (program, icu, own)]
    for (key, row), ours, theirs, owns in zip(rows.items(), *asked):
        kind = read_kind(ours, theirs, owns)
        if kind == "unexplained":
            kind = maximal_kind(key, ours, theirs, row, own_rows.get(("likely", key)), macros)
        found.add(kind, key, ours, theirs)
    return found


def suite_rows():
    """The identifiers of CLDR's suite, and their canonical forms."""
    lines = (COMMON / SUITE).read_text().split("\n")
    rows = (line.split(";") for line in lines if ";" in line and not line.startswith("#"))
    return {source.strip(): wanted.strip() for source, wanted in rows}


def compare_canonical(program, icu, own, inputs):
    """The canonical forms of CLDR's suite: against ICU4C, and how many of each are those of the suite."""
    rows = suite_rows()
    found = Comparison("canonical forms of CLDR's suite", "canonical forms")
    asked = [answers(it, "canonicalize", rows, inputs) for it in (program, icu, own)]
    right = Counter()
    for (source, wanted), ours, theirs, owns in zip(rows.items(), *asked):
        found.add(read_kind(ours, theirs, owns), source, ours, theirs)
        right[program.name] += spelled(ours) == spelled(wanted)
        right[icu.name] += spelled(theirs) == spelled(wanted)
    return found, right, len(rows)


def square(name):
    return name.replace("(", "[").replace(")", "]")


def name_kind(subject, ours, theirs, row, own_row):
    """Why names differ: row is CLDR's name of the subtag, and own_row that of ICU."""
    if subject == "und":
        return "root" if theirs == "root" else "unexplained"
    if own_row is None:
        return "unexplained"
    if not subject.startswith(f"{CARRIER}-"):
        return "data" if own_row == theirs else "unexplained"
    begin, _, end = ours.rpartition(row)
    changed = {"brackets": square(row), "data": own_row, "data and brackets": square(own_row)}
    return next((kind for kind, name in changed.items() if begin + name + end == theirs), "unexplained")


def subjects_of(tables, locale):
    """Every language, script and region that CLDR names in a locale: kind, subtag, what is asked, and its name."""
    for marker, rows in tables["names"].items():
        kind, length, _ = marker.split("/")
        if kind in ("language", "script", "region") and length == "medium":
            for subtag, name in rows.get(locale, {}).items():
                yield kind, subtag, subtag if kind == "language" else f"{CARRIER}-{subtag}", name


def compare_names(program, icu, own, inputs, locale):
    """The names of every language, script and region that CLDR names in a locale."""
    subjects = list(subjects_of(json.loads(inputs.tables.read_text()), locale))
    questions = [question for _, _, question, _ in subjects]
    own_rows = icu_rows(icu, "names", locale)
    found = Comparison(f"names of languages, scripts and regions in `{locale}`", "names")
    asked = [answers(it, "name", questions, inputs, locale) for it in (program, icu, own)]
    for (kind, subtag, question, name), ours, theirs, owns in zip(subjects, *asked):
        own_row = own_rows.get((kind, subtag.replace("-", "_")))
        if ours == theirs:
            cause = None
        elif ours == owns:
            cause = "reading"
        else:
            cause = name_kind(question, ours, theirs, name, own_row)
        found.add(cause, question, ours, theirs)
    return found


def keys_in(identifier):
    """The identifiers with the language and at most one other subtag: what a look-up in a likely table is made of."""
    language, *others = spelled(identifier).split("-")
    return [language, *(f"{language}-{other}" for other in others if len(other) in (2, 3, 4))]


def langid_kind(ours, theirs, maximal):
    """Why answers differ for one question: maximal has both programs' maximal forms of its keys."""
    if "?" in (ours, theirs):
        return "reading"
    if theirs.startswith("und-") and not ours.startswith("und"):
        return "und"
    return "data" if any(spelled(one) != spelled(other) for one, other in maximal) else "unexplained"


def compare_langid(program, langid, inputs, command, title):
    """The maximal or minimal forms of realistic identifiers, against unic-langid."""
    questions = inputs.identifiers.read_text().split("\n")[:LANGID_LINES]
    asked = [answers(it, command, questions, inputs) for it in (program, langid)]
    looked_up = [{*keys_in(question), *keys_in(ours)} - {"?"} for question, ours in zip(questions, asked[0])]
    keys = sorted(set().union(*looked_up))
    maximal = dict(zip(keys, zip(*(answers(it, "maximize", keys, inputs) for it in (program, langid)))))
    found = Comparison(f"{title} of realistic identifiers, by unic-langid", title)
    for question, ours, theirs, looked in zip(questions, *asked, looked_up):
        kind = None if ours == theirs else langid_kind(ours, theirs, [maximal[key] for key in looked])
        found.add(kind, question, ours, theirs)
    return found


def report(program, icu, own, node, langid, inputs):
    """The section of answers, as lines of Markdown."""
    titles = {"maximize": "maximal forms", "minimize": "minimal forms"} if langid else {}
    by_langid = [compare_langid(program, langid, inputs, command, title) for command, title in titles.items()]
    canonical, right, whole = compare_canonical(program, icu, own, inputs)
    comparisons = [compare_maximal(program, icu, own, inputs), canonical]
    comparisons += [compare_names(program, icu, own, inputs, locale) for locale in LOCALES]
    of_subtags = list(subtags.compare(program, icu, node, inputs)) if node else []
    yield from table_of_counts(comparisons + of_subtags + by_langid)
    yield ""
    suite = " and ".join(f"{right[name]} by {name}" for name in (program.name, icu.name))
    yield f"Of the {whole} canonical forms that the suite itself wants, {suite} are those."
    yield ""
    yield from table_of_kinds(comparisons, KINDS, "ICU4C")
    if of_subtags:
        yield ""
        yield from table_of_kinds(of_subtags, subtags.KINDS, "there")
    if by_langid:
        yield ""
        yield from table_of_kinds(by_langid, LANGID_KINDS, "unic-langid")

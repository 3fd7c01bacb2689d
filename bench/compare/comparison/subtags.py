"""What the program, ICU4C and Node.js make of each language, script and region that Node.js names."""
from .asking import Comparison, answers, macro_regions, spelled, with_region
from .programs import output_of

UNKNOWN = ("und", "Zzzz", "ZZ")
# The row of `und` in CLDR, where a script is in the place of its own.
OF_UND = "en-{}-us"
KINDS = {
    "macro region": ("macro regions",
                     "ICU4C replaces the region by that of the row; here no subtag that is given is replaced."),
    "no row": ("no row of the script",
               "CLDR has none, and its look-up ends at the row of `und`; here the script stays as it is."),
    "no language": ("no language", "CLDR's own row of the region names no language; here the script is `und`'s."),
    "data": ("other data", "Its own maximal form of the language, the script or the region is another one."),
    "newer": ("newer data", "ICU4C, whose CLDR is older, answers as here."),
    "unexplained": ("unexplained", ""),
}


def named(node, kind, inputs):
    """The subtags of a kind that Node.js names, but for those that stand for an unknown one."""
    empty = inputs.work / "empty"
    empty.write_text("")
    return [subtag for subtag in output_of(node, kind, empty) if subtag not in UNKNOWN]


def lists(languages, scripts, regions):
    """What is asked: a title, and its identifiers."""
    yield "languages, scripts and regions alone", [*languages, *(f"und-{subtag}" for subtag in scripts + regions)]
    yield "each script with each region", [f"und-{script}-{region}" for script in scripts for region in regions]
    yield "each language with each script and each region", [
        f"{language}-{subtag}" for language in languages for subtag in scripts + regions]


def parts(question):
    """The language alone, or where none is named the script and the region alone."""
    language, *others = question.split("-")
    return [f"und-{other}" for other in others] if language == "und" else [language]


class Forms:
    """The maximal forms of this program, of ICU4C and of Node.js, by question."""

    def __init__(self, programs, questions, inputs):
        self.found = dict(zip(questions, zip(*(answers(it, "maximize", questions, inputs) for it in programs))))
        self.macros = macro_regions()

    def spelled(self, question):
        return [spelled(form) for form in self.found[question]]

    def kind(self, question, place):
        """Why the form of the program at a place is not this one's, or None where it is."""
        forms = self.spelled(question)
        ours, theirs = forms[0], forms[place]
        if ours == theirs:
            return None
        if place > 1 and forms[1] == ours:
            return "newer"
        last = question.split("-")[-1]
        if last in self.macros and with_region(ours, theirs.split("-")[-1]) == theirs:
            return "macro region"
        if ours == spelled(question) and theirs == OF_UND.format(last.lower()):
            return "no row"
        keys = [self.spelled(key) for key in parts(question)]
        if theirs == spelled(question) and any(key[place].startswith("und-") for key in keys):
            return "no language"
        return "data" if any(key[0] != key[place] for key in keys) else "unexplained"


def compare(program, icu, node, inputs):
    """The comparisons with ICU4C, and those with Node.js."""
    asked = list(lists(*(named(node, kind, inputs) for kind in ("languages", "scripts", "regions"))))
    forms = Forms((program, icu, node), [question for _, questions in asked for question in questions], inputs)
    for place, other in ((1, icu), (2, node)):
        for title, questions in asked:
            found = Comparison(f"maximal forms of {title}, by {other.name}", other.name)
            for question in questions:
                found.add(forms.kind(question, place), question, forms.found[question][0], forms.found[question][place])
            yield found

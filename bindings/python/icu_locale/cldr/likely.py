"""Likely subtags (UTS #35 Part 1, section 4.3), of the elements `likelySubtag` of supplemental/likelySubtags.xml."""
from .source import NoCldr
from .subtags import UNKNOWN_LANGUAGE, UNKNOWN_REGION, UNKNOWN_SCRIPT, read_identifier

# Each map of the tables, by what its keys have of a known language, a script and a region.
MAPS = {
    ("language",): "language",
    ("language", "script"): "language_script",
    ("language", "region"): "language_region",
    ("script", "region"): "script_region",
    ("script",): "script",
    ("region",): "region",
}
BY_LANGUAGE = ("language", "language_script", "language_region")
BY_SCRIPT_REGION = ("script_region", "script", "region")
PLACEHOLDERS = (UNKNOWN_SCRIPT, UNKNOWN_REGION)
NO_PLACE = "likely subtags: no table has a place for keys of this form"
OWN_STAY = "likely subtags: a subtag of the key is another one in the value; the key's own stays, as UTS #35 has it"
IN_PART = "likely subtags: the value does not name a language, a script and a region"
UNSETTLED = "likely subtags: left out for --settled, since the maximal form would not be settled"


def subtags_of(identifier):
    """The subtags of an identifier by class; `und` is none."""
    found = {name: getattr(identifier, name) for name in ("language", "script", "region")}
    return {name: subtag for name, subtag in found.items() if subtag and subtag != UNKNOWN_LANGUAGE}


class Likely:
    """The rows of likely subtags: the triple of `und`, and six maps of rows from a key to what it lacks, by class."""

    def __init__(self):
        self.und = None
        self.maps = {name: {} for name in MAPS.values()}

    def add(self, key, value, account, row):
        """Puts a row where its key belongs."""
        own = subtags_of(key)
        name = MAPS.get(tuple(own))
        if not own and not key.variants:
            self.und = value
        elif name is None or key.variants or any(subtag in PLACEHOLDERS for subtag in own.values()):
            account.note(NO_PLACE, row)
        else:
            if any(getattr(value, kind) != subtag for kind, subtag in own.items()):
                account.note(OWN_STAY, row)
            lacking = [kind for kind in ("language", "script", "region") if kind not in own]
            self.maps[name]["-".join(own.values())] = {kind: getattr(value, kind) for kind in lacking}

    def served(self):
        """The maps without a language as the program asks them: where they have no row, the triple of `und` serves."""
        language, script, region = self.und[:3]
        return {
            "script_region": {f"{script}-{region}": {"language": language}} | self.maps["script_region"],
            "script": {script: {"language": language, "region": region}} | self.maps["script"],
            "region": {region: {"language": language, "script": script}} | self.maps["region"],
        }

    def leads_on(self, name, key, value):
        """A row gives no language, and maximizing what it gives finds one."""
        if name not in ("script", "region") or value["language"] != UNKNOWN_LANGUAGE:
            return False
        script, region = (key, value["region"]) if name == "script" else (value["script"], key)
        return first_row(self.served(), script, region)["language"] != UNKNOWN_LANGUAGE

    def unsettled_rows(self):
        """The rows that keep the table from being settled: those that give a placeholder, and those that lead on."""
        rows = [(name, key, value) for name, rows in self.maps.items() for key, value in rows.items()]
        given = [row for row in rows if any(subtag in PLACEHOLDERS for subtag in row[2].values())]
        return given or [row for row in rows if self.leads_on(*row)]

    def settle(self, account):
        """Leaves out what keeps the table from being settled, until nothing does."""
        while rows := self.unsettled_rows():
            for name, key, value in rows:
                account.note(UNSETTLED, f"{key} to {'-'.join(value.values())}")
                del self.maps[name][key]

    def tables(self):
        """The two tables of a file."""
        shown = {name: {key: values(row) for key, row in sorted(rows.items())} for name, rows in self.maps.items()}
        return {
            "likely_language": {"und": list(self.und[:3])} | {name: shown[name] for name in BY_LANGUAGE},
            "likely_script_region": {name: shown[name] for name in BY_SCRIPT_REGION},
        }


def first_row(maps, script, region):
    """The row of the first key that a script and a region have in some maps, or None. Either may be None."""
    keys = {"script_region": f"{script}-{region}", "script": script, "region": region}
    return next((maps[name][key] for name, key in keys.items() if key in maps[name]), None)


def values(row):
    """One subtag is alone, and two are in an array."""
    found = list(row.values())
    return found[0] if len(found) == 1 else found


def likely_rows(common):
    """Each row of CLDR: the texts of its key and of its value."""
    root = common.document("supplemental/likelySubtags.xml")
    return [(row.get("from"), row.get("to")) for row in root.iter("likelySubtag")]


def read_likely(common, account):
    """The rows of CLDR that the tables have a place for."""
    likely = Likely()
    for source, target in likely_rows(common):
        key, value = read_identifier(source), read_identifier(target)
        if key is None:
            account.note(NO_PLACE, f"{source} to {target}")
        elif value is None or not (value.script and value.region) or value.variants:
            account.note(IN_PART, f"{source} to {target}")
        else:
            likely.add(key, value, account, f"{source} to {target}")
    if likely.und is None or any(subtag in PLACEHOLDERS for subtag in likely.und):
        raise NoCldr("likelySubtags.xml has no row of `und` that the tables could hold")
    return likely

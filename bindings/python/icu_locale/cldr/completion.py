"""Rows that CLDR leaves out of its likely subtags, since its own look-up finds them at a further key.

Where no language is named, CLDR looks up the script and the region, then the script, then the region, and at last `und`
alone. The program's look-up has no last step, and for it the triple of `und` is a row of its script, which comes before
a region's. So `und-GB` would stay as it is, and `und-Latn-DE` would be English.
"""
from .likely import first_row
from .subtags import UNKNOWN_LANGUAGE
from .validity import spelled

# Whose subtags are asked for, of the states in a validity file. A row of a script that is special, such as `Zxxx`, would
# come before every region's, and is left out.
STATES = {"region": ("regular", "macroregion", "special", "deprecated"), "script": ("regular",)}
ADDED = "likely subtags: rows added, so that scripts and regions that CLDR knows have what its own look-up finds"
NO_VALIDITY = "likely subtags: no rows added, since this version of CLDR does not say which subtags there are"


def known(common, kind, states):
    """The scripts or the regions that CLDR has in some states."""
    for group in common.document(f"validity/{kind}.xml").iter("id"):
        if group.get("idStatus") in states:
            for word in group.text.split():
                yield from spelled(word)


def questions(common):
    """Each region, each script and each two of them: those alone come first, since their rows answer for two as well."""
    regions, scripts = (list(known(common, kind, states)) for kind, states in STATES.items())
    yield from ((None, region) for region in regions)
    yield from ((script, None) for script in scripts)
    yield from ((script, region) for script in scripts for region in regions)


def filled(row, script, region):
    """What a row makes of a script and a region, either of which may be None."""
    return row and {"language": row["language"], "script": script or row["script"], "region": region or row["region"]}


def complete(likely, aliases, common, account):
    """Adds the rows where CLDR's look-up gives a language and the program's would give none, or another one."""
    if not all(common.has(f"validity/{kind}.xml") for kind in STATES):
        account.note(NO_VALIDITY, "validity")
        return
    given = {name: dict(rows) for name, rows in likely.maps.items()}
    und, served = likely.und._asdict(), likely.served()
    for script, region in questions(common):
        wanted = filled(first_row(given, script, aliases.first_region(region)) or und, script, region)
        if wanted["language"] != UNKNOWN_LANGUAGE and wanted != filled(first_row(served, script, region), script, region):
            own = {kind: subtag for kind, subtag in (("script", script), ("region", region)) if subtag}
            name, key = "_".join(own), "-".join(own.values())
            row = {kind: subtag for kind, subtag in wanted.items() if kind not in own}
            likely.maps[name][key] = served[name][key] = row
            account.note(ADDED, f"{key} to {'-'.join(row.values())}")

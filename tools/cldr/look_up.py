"""CLDR's own look-up of likely subtags where no language is named (UTS #35 Part 1, section 4.3), for tests.

It shares nothing with `likely.py` and `completion.py` but the rows of CLDR and which subtags there are.
"""
from icu_locale.cldr.completion import known
from icu_locale.cldr.likely import likely_rows

USED = ("regular", "macroregion", "special", "deprecated")
UNKNOWN_LANGUAGE = "und"


class LookUp:
    """The rows of a CLDR folder, and the first region that each deprecated one became."""

    def __init__(self, common):
        self.common = common
        self.rows = {source: target.split("_") for source, target in likely_rows(common)}
        metadata = common.document("supplemental/supplementalMetadata.xml")
        self.became = {row.get("type"): row.get("replacement").split()[0] for row in metadata.iter("territoryAlias")}

    def maximal(self, script, region):
        """The maximal form of an identifier without a language: what is asked stays, and the first row fills it in."""
        now = self.became.get(region, region)
        keys = [["und", script, now], ["und", script], ["und", now], ["und"]]
        texts = ["_".join(key) for key in keys if None not in key]
        language, likely_script, likely_region = next(self.rows[text] for text in texts if text in self.rows)
        return "-".join([language, script or likely_script, region or likely_region])

    def answers(self):
        """Each script and each region, alone and together, with its maximal form where that names a language. A script
        that is special has no row of its own, and is asked for with a region alone (docs/CLDR.md)."""
        regions = list(known(self.common, "region", USED))
        scripts, ordinary = (list(known(self.common, "script", states)) for states in (USED, ("regular",)))
        asked = [(None, region) for region in regions] + [(script, None) for script in ordinary]
        asked += [(script, region) for script in scripts for region in regions]
        for script, region in asked:
            found = self.maximal(script, region)
            if not found.startswith(UNKNOWN_LANGUAGE):
                yield "-".join(filter(None, ["und", script, region])), found

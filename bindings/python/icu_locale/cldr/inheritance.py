"""What a locale inherits (UTS #35 Part 1, section 4.2): its chain of parents, up to `root`."""
from .likely import likely_rows
from .source import NoCldr

ROOT = "root"
# A value that stands for the parent's, and one that stands for none.
INHERITED, ABSENT = "↑↑↑", "∅∅∅"
# The least that UTS #35 counts as fit for use: what is not yet confirmed is left out.
FIT_DRAFTS = (None, "approved", "contributed")


class Inheritance:
    """The chains of parents of a CLDR folder, of the elements `parentLocale` of supplemental/supplementalData.xml."""

    def __init__(self, common):
        self.common = common
        self.parents = {}
        self.unlikely_scripts_are_apart = False
        for parents in common.document("supplemental/supplementalData.xml").iter("parentLocales"):
            if parents.get("component") is None:
                for row in parents.iter("parentLocale"):
                    self.add(row)
        self.likely_scripts = {source: target.split("_")[1] for source, target in likely_rows(common)
                               if "_" not in source and target.count("_") == 2}

    def add(self, row):
        """A parent of some locales; newer files say of `root` that it is that of each script that is not likely."""
        self.parents |= {name: row.get("parent") for name in (row.get("locales") or "").split()}
        if "nonlikelyScript" in (row.get("localeRules") or "").split():
            self.unlikely_scripts_are_apart = True

    def parent(self, name):
        """The parent that is named, or else the locale without its last subtag, and at last `root`."""
        if name in self.parents:
            return self.parents[name]
        first, _, last = name.rpartition("_")
        if self.unlikely_scripts_are_apart and len(last) == 4 and last != self.likely_scripts.get(first, last):
            return ROOT
        return first or ROOT

    def names(self, name):
        """A name of a file and what it inherits from, `root` last."""
        found = [name]
        while found[-1] != ROOT:
            found.append(self.parent(found[-1]))
        return found

    def chain(self, locale):
        """The files that a locale inherits from, `root` first and its own last."""
        name = str(locale).replace("-", "_")
        if not self.common.has_locale(name):
            raise NoCldr(f"CLDR has no locale {locale}")
        return [self.common.locale(name) for name in reversed(self.names(name)) if self.common.has_locale(name)]

    def resolved(self, locale, rows_of, account):
        """The texts of a locale by key: those of its chain, each in the place of what it inherits.

        `rows_of` gives the rows of one file: a key and its element each.
        """
        return self.resolved_of(self.chain(locale), locale, rows_of, account)

    def resolved_in(self, folder, locale, rows_of, account):
        """The same of the files of another folder, which need not be there."""
        files = [f"{folder}/{name}.xml" for name in reversed(self.names(str(locale).replace("-", "_")))]
        documents = [self.common.document(name) for name in files if self.common.has(name)]
        return self.resolved_of(documents, locale, rows_of, account)

    @staticmethod
    def resolved_of(documents, locale, rows_of, account):
        """The texts of documents by key, each in the place of an earlier one."""
        found = {}
        for document in documents:
            for key, element in rows_of(document):
                text = element.text or ""
                if element.get("draft") not in FIT_DRAFTS:
                    account.note(f"{locale}: drafts that are neither approved nor contributed", " ".join(key))
                elif text == ABSENT:
                    found.pop(key, None)
                elif text != INHERITED:
                    found[key] = text
        return found

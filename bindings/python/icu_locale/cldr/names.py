"""Names of languages, scripts, regions and variants, of the element `localeDisplayNames` (UTS #35 Part 2, section 1).

A table in memory has no use for weights, which divide data that a library is linked with: so each name is under
the lightest marker of its form, which every chain that has this form asks.
"""
from .subtags import UNKNOWN_LANGUAGE, read_locale, read_subtag

# The lists of names: what each is called in CLDR, and its elements.
LISTS = (("languages", "language"), ("scripts", "script"), ("territories", "territory"), ("variants", "variant"))
PLAIN = "plain"
# Where a name of a kind and of a form is.
MARKERS = {
    ("language", PLAIN): "language/medium/tiny",
    ("language", "short"): "language/short/light",
    ("language", "long"): "language/long/light",
    ("script", PLAIN): "script/medium/tiny",
    ("script", "short"): "script/short/heavy",
    ("territory", PLAIN): "region/medium/tiny",
    ("territory", "short"): "region/short/tiny",
    ("variant", PLAIN): "variant/medium/heavy",
}
MENU_MARKER = "language/menu/medium/light"
# Forms for menus: one text, and since CLDR 45 a core and an extension.
MENU, CORE, EXTENSION = "menu", "menu=core", "menu=extension"


def form_of(element):
    """The alternative form of a name."""
    part = element.get("menu")
    return element.get("alt") or (f"menu={part}" if part else PLAIN)


def name_rows(document):
    """The names in a file: kind, subtag and form, with the element."""
    names = document.find("localeDisplayNames")
    for group, tag in LISTS if names is not None else ():
        for element in names.iterfind(f"{group}/{tag}"):
            yield (tag, element.get("type"), form_of(element)), element


def note_others(documents, locale, account):
    """Says which other names CLDR has for a locale: of keys, of types, of systems of measurement and the like."""
    read = {group for group, _ in LISTS} | {"localeDisplayPattern"}
    for document in documents:
        for group in document.iterfind("localeDisplayNames/*"):
            if group.tag not in read:
                account.note(f"{locale}: lists of names of what is no subtag", group.tag)


def key_of(kind, subtag):
    """The key of a name in its written form, or None where no table has one for it."""
    if kind == "language":
        locale = read_locale(subtag)
        return str(locale) if locale else None
    return read_subtag("region" if kind == "territory" else kind, subtag)


class Names:
    """The rows of names and of names in menus."""

    def __init__(self, account):
        self.account = account
        self.names = {marker: {} for marker in MARKERS.values()}
        self.menus = {MENU_MARKER: {}}

    def add(self, locale, resolved):
        """The names of a locale."""
        in_menus = {}
        for (kind, subtag, form), text in sorted(resolved.items()):
            key, marker = key_of(kind, subtag), MARKERS.get((kind, form))
            name = f"{kind} {subtag} {form}"
            if key is None:
                self.account.note(f"{locale}: names of what is no subtag or locale here", name)
            elif marker:
                self.names[marker].setdefault(str(locale), {})[key] = text
            elif kind == "language" and form in (MENU, CORE, EXTENSION):
                in_menus.setdefault(key, {})[form] = text
            else:
                self.account.note(f"{locale}: names of a form that no table has", name)
        self.add_menus(locale, in_menus)

    def add_menus(self, locale, in_menus):
        """The names in menus: core and extension where CLDR tells them apart, and else the one text as the core."""
        for key, forms in in_menus.items():
            core = forms.get(CORE, forms.get(MENU))
            if read_subtag("language", key) is None or core is None:
                self.account.note(f"{locale}: names in menus without a core, or of more than a language", key)
            else:
                extension = forms.get(EXTENSION, "") if CORE in forms else ""
                self.menus[MENU_MARKER].setdefault(str(locale), {})[key] = [core, extension]
                if CORE in forms and MENU in forms:
                    self.account.note(f"{locale}: names in menus as one text, where core and extension are told", key)

    def tables(self):
        """The two members of a file. What stands in the order of its names is read in one pass."""
        return {"names": {marker: rows for marker, rows in sorted(self.names.items()) if rows},
                "menus": {marker: rows for marker, rows in self.menus.items() if rows}}


def raw_name(kind, subtag):
    """An identifier whose name shows that of one subtag."""
    return subtag if kind == "language" else f"{UNKNOWN_LANGUAGE}-{subtag}"

"""Aliases of the values at the keys of the extensions `u` and `t` (UTS #35 Part 1, sections 3.6.4 and 3.7.1, data files).

A type of a key is named once, and may have aliases; one that is deprecated may have a preferred one. So a row goes from an
alias to its type, and from a type to the preferred one. An alias that names a type in use has no row, since a row would take
that type away: `islamicc` has `islamic-civil` both as an alias and as the preferred type.

In `u` the value `true` is the empty one, and the row says `true`; in `t` it is a piece as any other.
"""
import re

FOLDER = "bcp47"
VALUE = re.compile(r"[A-Za-z0-9]{3,8}(-[A-Za-z0-9]{3,8})*")
# What a key is in each extension, and the member that has its rows.
KEYS = {"u": ("keywords", re.compile(r"[a-z0-9][a-z]")), "t": ("fields", re.compile(r"[a-z][0-9]"))}
# Keys of which the rules of subdivisions speak.
OF_SUBDIVISIONS = ("rg", "sd")
NO_FOLDER = "values: folders that are not there, so that no value has an alias"
NO_KEY = "values: keys of another form than those of `u` and of `t`"
NO_VALUE = "values: aliases or preferred types of another form than a value"
IN_USE = "values: aliases that are types in use, which no row replaces"
SUBDIVISIONS = "values: aliases at `rg` and `sd`, of which the rules of subdivisions speak"
ANOTHER = "values: aliases that have a preferred type already, or are another type's too"


def read_value(text):
    """The value that a text spells, in written form, or None where it spells none."""
    return text.lower() if VALUE.fullmatch(text) else None


def value_aliases(common, account):
    """The aliases of values by member, key and value, and what each gives."""
    found = {"keywords": {}, "fields": {}}
    for (extension, key), types in sorted(types_by_key(common, account).items()):
        member, form = KEYS.get(extension, (None, None))
        if member is None or not form.fullmatch(key):
            account.note(NO_KEY, f"{extension} {key}")
            continue
        rows = rows_of(key, types, account)
        if key in OF_SUBDIVISIONS:
            for value in rows:
                account.note(SUBDIVISIONS, f"{key} {value}")
        elif rows:
            found[member][key] = dict(sorted(rows.items()))
    return found


def types_by_key(common, account):
    """The types of all files, by extension and key."""
    found, names = {}, common.names(FOLDER)
    if not names:
        account.note(NO_FOLDER, FOLDER)
    for name in names:
        for key in common.document(f"{FOLDER}/{name}").iter("key"):
            whole = key.get("extension") or "u", key.get("name").lower()
            found.setdefault(whole, []).extend(key.iter("type"))
    return found


def rows_of(key, types, account):
    """The rows of a key's types: the preferred type of each that has one, and the aliases of each."""
    rows, in_use = {}, {row.get("name").lower() for row in types if row.get("deprecated") != "true"}
    for row in types:
        if row.get("preferred"):
            add_row(rows, key, row.get("name"), row.get("preferred"), account)
    for row in types:
        for alias in (row.get("alias") or "").split():
            if alias.lower() in in_use - {row.get("name").lower()}:
                account.note(IN_USE, f"{key} {alias}")
            else:
                add_row(rows, key, alias, row.get("name"), account)
    return rows


def add_row(rows, key, source, target, account):
    """Adds a row of two values, where both are some, they are not one, and none is there that gives another."""
    value, other = read_value(source), read_value(target)
    if value is None or other is None:
        account.note(NO_VALUE, f"{key} {source}")
    elif rows.get(value, other) != other:
        account.note(ANOTHER, f"{key} {source} to {target}")
    elif value != other:
        rows[value] = other

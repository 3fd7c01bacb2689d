"""What CLDR says of codes: their status (common/validity), and what the keys of the extensions `u` and `t` take
(common/bcp47; UTS #35 Part 1, section 3.11, Validity Data).

Codes are written as CLDR's own files write them: a space between two, and `X~c` for the codes from X to the one that ends in
c instead. A range of which more than the last character differs is written as several.
"""
import itertools
import re

from .subtags import read_subtag
from .values import FOLDER, KEYS, read_value

# Each member with codes, and the class of its codes.
MEMBERS = {"language": "language", "script": "script", "region": "region", "variant": "variant",
           "subdivision": "subdivision", "currency": "subdivision"}
STATUSES = ("regular", "special", "macroregion", "unknown", "private_use", "deprecated", "reserved")
# Types that stand for all codes of a kind.
KINDS = {"SCRIPT_CODE": "script", "REORDER_CODE": "script", "SUBDIVISION_CODE": "subdivision",
         "RG_KEY_VALUE": "region_override", "CODEPOINTS": "code_point", "PRIVATE_USE": "any"}
OF_CURRENCIES = ("u", "cu")
DTD = "dtd/ldmlSupplemental.dtd"
VERSION = re.compile(r'<!ATTLIST version cldrVersion CDATA #FIXED "([0-9.]+)"')
NO_FILE = "validity: files that are not there, so that none of their codes is known"
NO_CODE = "validity: codes of another form than their kind's"
NO_STATUS = "validity: lists of codes with a status that the tables have no place for"
NO_KIND = "validity: types that stand for codes of a kind that the tables have no place for"
NO_TYPE = "validity: types of another form than a value"


def version_of(common):
    """The version of CLDR that a folder tells; none where it tells none."""
    found = VERSION.search(common.text(DTD)) if common.has(DTD) else None
    return found.group(1) if found else None


def validity(common, account):
    """The name of the data, where it has one, and the table of validity."""
    version = version_of(common)
    named = {"cldr": version} if version else {}
    tables = {member: codes_of(common, member, account) for member in MEMBERS}
    return named | {"validity": {member: held for member, held in (tables | keys_of(common, account)).items() if held}}


# ---- codes


def codes_of(common, member, account):
    """The codes of a member by status."""
    name, found = f"validity/{member}.xml", {}
    if not common.has(name):
        account.note(NO_FILE, name)
        return found
    for row in common.document(name).iter("id"):
        status = row.get("idStatus")
        if status not in STATUSES:
            account.note(NO_STATUS, f"{member} {status}")
            continue
        found.setdefault(status, []).extend(read_codes(member, row.text or "", account))
    return by_status(found)


def by_status(found):
    """The texts of codes by status. What stands in the order of its names is read in one pass."""
    return {status: compact(codes) for status, codes in sorted(found.items()) if codes}


def read_codes(member, text, account):
    """The codes that a text lists, in written form."""
    for word in text.split():
        for code in spelled(word):
            read = read_subtag(MEMBERS[member], code)
            if read is None:
                account.note(NO_CODE, f"{member} {code}")
            else:
                yield read


def spelled(word):
    """The codes of a word: one, or those of a range, in which each of its last characters goes up to the one after `~`."""
    first, _, last = word.partition("~")
    stem, ends = first[:len(first) - len(last)], first[len(first) - len(last):]
    for end in itertools.product(*(map(chr, range(ord(low), ord(high) + 1)) for low, high in zip(ends, last))):
        yield stem + "".join(end)


def compact(codes):
    """A text that lists codes, each once, in order, where those that differ in the last character alone make ranges."""
    words = []
    for code in sorted(set(codes)):
        first, last = words[-1] if words else (code, None)
        if last and code[:-1] == last[:-1] and ord(code[-1]) == ord(last[-1]) + 1:
            words[-1] = first, code
        else:
            words.append((code, code))
    return " ".join(first if first == last else f"{first}~{last[-1]}" for first, last in words)


# ---- keys


def keys_of(common, account):
    """What each key takes, by the member of its extension."""
    found, rows = {"keywords": {}, "fields": {}}, {}
    for name in common.names(FOLDER):
        for key in common.document(f"{FOLDER}/{name}").iter("key"):
            rows.setdefault((key.get("extension") or "u", key.get("name").lower()), []).append(key)
    for (extension, key), parts in sorted(rows.items()):
        member, form = KEYS.get(extension, (None, None))
        if member and form.fullmatch(key):
            found[member][key] = key_of(extension, key, parts, account)
    return found


def key_of(extension, key, parts, account):
    """What a key takes: its types by status, and what else each subtag of its value may be."""
    types, kinds = {}, set()
    for row in itertools.chain.from_iterable(part.iter("type") for part in parts):
        name = row.get("name")
        if name in KINDS:
            kinds.add(KINDS[name])
        elif (extension, key) == OF_CURRENCIES:
            kinds.add("currency")
        elif name.isupper():
            account.note(NO_KIND, f"{key} {name}")
        elif read_value(name) is None:
            account.note(NO_TYPE, f"{key} {name}")
        else:
            types.setdefault("deprecated" if row.get("deprecated") == "true" else "regular", []).append(name.lower())
    if extension == "t" and not kinds:
        kinds.add("date")  # a mechanism may have a date after its type (RFC 6497, section 2.2)
    return described(parts, by_status(types), kinds)


def described(parts, types, kinds):
    """The row of a key, without what is as if left out."""
    row = {}
    if any(part.get("deprecated") == "true" for part in parts):
        row["status"] = "deprecated"
    if types:
        row["types"] = types
    if kinds:
        row["kind"] = max(kinds)
    if any(part.get("valueType") in ("multiple", "any") for part in parts):
        row["many"] = True
    return row

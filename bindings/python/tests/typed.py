"""Each call with the types that it takes and gives: mypy --strict reads it, and a run of it tries it."""
from typing import List, Optional, Union

from icu_locale import (Canonical, Chain, CodeStatus, Direction, ExemplarSet, Invalid, LineRefused, Match, MenuRow, Named,
                        Negotiator, PartKind, Refused, RegionChain, Resolved, ScriptChain, SubtagKind, Switcher, Tables, Text,
                        VariantChain, __version__, cldr_locales, cldr_version)
from icu_locale.example import SUPPLEMENT, TABLES


def shown(tables: Tables) -> List[str]:
    """A line for each answer."""
    forms: List[str] = [tables.maximize("zh-TW"), tables.minimize(b"zh-Hant-TW", favor_script=True)]
    canonical: Canonical = tables.canonicalize_with("sh", "abcdefg")
    direction: Optional[Direction] = tables.direction("ar")
    chain: List[str] = tables.fallback("en-AU")
    rows: List[MenuRow] = tables.menu(["en"], "en", key=len)
    kinds: Chain = "menu-light"
    named: Named = tables.name_parts("ku", "en", kinds)
    forms += [f"{named.name} {named.is_raw}"]
    forms += [tables.name("it-US", chain[0], fallback=True), *chain, *(row.own for row in rows)]
    return [*forms, canonical.identifier, canonical.value, direction or "none", tables.name("it-US", "en")]


def codes() -> List[str]:
    """What is told of codes."""
    rows = '{"cldr": "41", "validity": {"language": {"regular": "de"}, "region": {"deprecated": "DD"}}}'
    with Tables.from_json(TABLES, rows) as tables:
        parts: List[Invalid] = tables.validate("de_DD", syntax="posix")
        kind: PartKind = parts[0].kind
        status: CodeStatus = parts[0].status
        valid: bool = tables.is_valid(b"de")
        of_script: ScriptChain = "short-heavy"
        of_region: RegionChain = "short-tiny"
        of_variant: VariantChain = "heavy"
        kinds: SubtagKind = "variants"
        among: ExemplarSet = "main"
        names: List[Named] = [
            tables.language_name("it", "en", "heavy"), tables.script_name(b"Latn", "en", of_script),
            tables.region_name("us", "en", of_region), tables.variant_name("fonipa", "en", of_variant)]
        called: List[str] = tables.listed(kinds, "en")
        has: bool = tables.has_exemplar(among, "en", "ng")
        name: Optional[str] = tables.data_name
        flat: bytes = tables.flat_names()
        tables.lend_names(memoryview(flat))
    return [f"{kind} {status} {parts[0].start + 1} {valid} {has} {name}", *(each.name for each in names), *called]


def served(tables: Tables, header: str) -> List[str]:
    """What a reader is served, by a negotiator, by a switcher and at once."""
    negotiator: Negotiator = tables.negotiator(["en", "zh-Hant"])
    match: Optional[Match] = negotiator.negotiate(["fr", "zh-TW"])
    with tables.switcher(negotiator.available) as switcher:
        found: Optional[Text] = switcher.serve([header])
    spelled: Switcher[bytes, None] = tables.switcher([b"en", b"zh-Hant"])
    octets: Optional[bytes] = spelled.serve(header)
    sure: Switcher[str, str] = tables.switcher(["en", "zh-Hant"], default="en")
    always: str = sure.serve(None) + sure.nearest(["fr"])
    at_once: Optional[str] = tables.serve(header, ["en", "zh-Hant"])
    by_default: str = tables.serve(header.encode(), ["en", "zh-Hant"], default="en").lower()
    other: Union[bytes, int] = tables.nearest([header[:5]], [b"zh-Hant"], default=5)
    distance: int = tables.distance("en-AU", b"en-GB", syntax="bcp47")
    same: bool = tables.are_same("sh", "sr-Latn")
    near: Switcher[str, str] = tables.switcher(["de"], default="en", threshold=8, demotion=0, favor_script=True, or_first=True)
    resolved: Optional[Resolved] = near.resolved(["fr", b"gsw-CH"])
    return [str(match and match.available), str(found), str(octets), always, str(at_once), by_default, str(other),
            str(distance), str(same), near.serve("gsw").lower(), str(resolved and resolved.locale)]


def spot(refusal: LineRefused) -> str:
    """Where a text is none."""
    start: int = refusal.start
    subtag: Optional[str] = refusal.subtag
    return f"{start}: {subtag}"


def opened(locales: List[str]) -> List[Tables]:
    """Tables of CLDR's data inside; a package may have none."""
    known: List[str] = cldr_locales()
    number: Optional[str] = cldr_version()
    print(known, number)
    return [Tables.cldr(), Tables.cldr(locales), Tables.cldr(iter(locales)), Tables.cldr("all")]


def wrong(tables: Tables) -> None:
    """What is no call: each line has a fault, or mypy warns of what it passes over."""
    tables.serve(5, ["en"])  # type: ignore[call-overload]
    tables.nearest(["en"], [5])  # type: ignore[type-var]
    Tables.cldr(5)  # type: ignore[arg-type]
    tables.serve("en", ["en"]).lower()  # type: ignore[union-attr]
    tables.name("en", "en", "lihgt")  # type: ignore[arg-type]
    tables.switcher([b"en"], default=b"en").serve("en").isidentifier()  # type: ignore[attr-defined]
    tables.switcher(["en"], threshold="8")  # type: ignore[call-overload]
    tables.region_name("US", "en", "heavy")  # type: ignore[arg-type]
    tables.listed("region", "en")  # type: ignore[arg-type]
    tables.has_exemplar("best", "en", "a")  # type: ignore[arg-type]


def main() -> None:
    with Tables.from_json(TABLES, SUPPLEMENT) as tables:
        settled: bool = tables.is_settled
        lines = [*shown(tables), *codes(), *served(tables, "zh-TW, en;q=0.5"), str(settled)]
    try:
        tables.maximize("zh")
    except Refused as refusal:
        lines.append(f"{refusal.number}: {refusal}")
    version: str = __version__
    print("\n".join(lines) if version else "no version")


if __name__ == "__main__":
    main()

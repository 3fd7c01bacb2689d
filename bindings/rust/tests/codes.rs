//! Codes: which are valid, their names, lists of them, exemplar characters, and the name of the data. What is wanted stands in
//! CLDR's files: common/validity, common/bcp47, common/main and common/dtd.
use icu_locale_calls::{
    cldr_version, Chain, CodeStatus, ExemplarSet, Invalid, Name, PartKind, Refusal, RegionChain, ScriptChain, SubtagKind, Syntax, Tables,
    EXAMPLE, EXAMPLE_SUPPLEMENT,
};
use CodeStatus::{Deprecated, Reserved, Unlisted};

// Some rows of validity/*.xml and of bcp47/*.xml.
const VALIDITY: &str = r#"{"cldr":"41","validity":{
 "language":{"regular":"de en","deprecated":"iw"},"script":{"regular":"Hant Latn","deprecated":"Qaai"},
 "region":{"regular":"DE US","deprecated":"DD","reserved":"QM~N QP~T QV~Z"},"variant":{"regular":"1996 fonipa"},
 "keywords":{"ca":{"types":{"regular":"buddhist","deprecated":"islamicc"}},"hc":{"types":{"regular":"h11~2 h23~4"}}},
 "fields":{"m0":{"types":{"regular":"prprname"},"kind":"date"}}}}"#;

type Part = (PartKind, &'static str, CodeStatus, usize);

// An identifier, and what of it is not valid with the byte where that begins: in VALIDITY, and in all of CLDR.
const REPORTS: [(&str, &[Part]); 16] = [
    ("en", &[]),
    ("de-Latn-DE-1996", &[]),
    ("EN_latn_us", &[]),
    ("en-u-ca-buddhist-hc-h23", &[]),
    ("de-t-en-m0-prprname", &[]),
    ("en-x-mine", &[]),
    ("de-DD", &[(PartKind::Region, "DD", Deprecated, 3)]),
    ("en_qx", &[(PartKind::Region, "QX", Reserved, 3)]),
    ("IW", &[(PartKind::Language, "iw", Deprecated, 0)]),
    ("en-Qaai", &[(PartKind::Script, "Qaai", Deprecated, 3)]),
    ("xx-Latm-US", &[(PartKind::Language, "xx", Unlisted, 0), (PartKind::Script, "Latm", Unlisted, 3)]),
    ("de-1996-abcde", &[(PartKind::Variant, "abcde", Unlisted, 8)]),
    (
        "en-u-ca-islamicc-hc-h99",
        &[(PartKind::Keyword, "ca-islamicc", Deprecated, 5), (PartKind::Keyword, "hc-h99", Unlisted, 17)],
    ),
    ("en-u-attr", &[(PartKind::Attribute, "attr", Unlisted, 5)]),
    ("en-a-b1", &[(PartKind::Extension, "a-b1", Unlisted, 3)]),
    ("de-t-en-m0-names", &[(PartKind::Field, "m0-names", Unlisted, 8)]),
];

fn small() -> Tables {
    Tables::from_json_with(EXAMPLE.as_bytes(), EXAMPLE_SUPPLEMENT.as_bytes()).unwrap()
}

fn with_supplement(supplement: &str) -> Tables {
    Tables::from_json_with(EXAMPLE.as_bytes(), supplement.as_bytes()).unwrap()
}

// The tables of some locales, and none where the crate has no data.
fn opened(locales: &[&str]) -> Option<Tables> {
    match Tables::cldr(locales) {
        Err(Refusal::NoData) => None,
        tables => Some(tables.unwrap()),
    }
}

fn invalid((kind, text, status, start): Part) -> Invalid {
    Invalid { kind, text: text.to_owned(), status, place: start..start + text.len() }
}

fn reports(tables: &Tables) {
    for (text, wanted) in REPORTS {
        let wanted: Vec<Invalid> = wanted.iter().copied().map(invalid).collect();
        assert_eq!(tables.is_valid(text), Ok(wanted.is_empty()), "{text}");
        assert_eq!(tables.validate(text), Ok(wanted), "{text}");
    }
}

#[test]
fn validity() {
    let tables = with_supplement(VALIDITY);
    reports(&tables);
    reports(&tables.share().unwrap());
    for (text, refusal) in [("", Refusal::InvalidLanguage), ("english", Refusal::InvalidLanguage), ("en-", Refusal::InvalidSubtag)] {
        assert_eq!((tables.validate(text), tables.is_valid(text)), (Err(refusal), Ok(false)), "{text}");
    }
    let refusal = Refusal::Table { member: "validity" };
    assert_eq!((small().validate("en"), small().is_valid("en")), (Err(refusal), Err(refusal)));
    assert_eq!(refusal.to_string(), "the tables leave out `validity`, which is needed: a supplement has it");
    let tables = tables.with_syntax(Syntax::Posix);
    assert_eq!(tables.validate("de_DD"), Ok(vec![invalid((PartKind::Region, "DD", Deprecated, 3))]));
    assert_eq!(tables.is_valid("en_US.UTF-8@latin"), Ok(true));
    assert_eq!(tables.validate("de_DD.x_dd"), Ok(vec![invalid((PartKind::Region, "DD", Deprecated, 3))]));
    // what is no piece of the text has the whole as its place
    let german = Invalid { kind: PartKind::Script, text: "Cyrl".to_owned(), status: Unlisted, place: 0..14 };
    assert_eq!(tables.validate("de_DE@cyrillic"), Ok(vec![german]));
    let klingon = Invalid { kind: PartKind::Language, text: "tlh".to_owned(), status: Unlisted, place: 0..9 };
    assert_eq!(tables.with_syntax(Syntax::Bcp47).validate("i-klingon"), Ok(vec![klingon]));
}

fn name(text: &str, is_raw: bool) -> Result<Name, Refusal> {
    Ok(Name { text: text.to_owned(), is_raw })
}

#[test]
fn names() {
    let tables = small();
    assert_eq!(tables.region_name("us", "en", RegionChain::default()), name("United States", false));
    assert_eq!(tables.region_name("US", "EN", RegionChain::ShortLight), name("US", false));
    assert_eq!(tables.region_name("us", "de", RegionChain::Light), name("US", true));
    assert_eq!(tables.script_name("LATN", "en", ScriptChain::default()), name("Latin", false));
    assert_eq!(tables.variant_name("FONIPA", "en"), name("IPA Phonetics", false));
    assert_eq!(tables.language_name("it", "en", Chain::Light), name("Italian", false));
    assert_eq!(tables.language_name("ku", "en", Chain::MenuLight), name("Kurdish (Kurmanji)", false));
    assert_eq!(tables.language_name("tlh", "en", Chain::Light), name("tlh", true));
    assert_eq!(tables.language_name("it", "de", Chain::Light), Err(Refusal::NameMissing));
    for wrong in ["", "de-AT", "Latn", "e"] {
        assert_eq!(tables.language_name(wrong, "en", Chain::Light), Err(Refusal::InvalidLanguage), "{wrong}");
    }
    for wrong in ["", "US", "Latn-US", "Lat1"] {
        assert_eq!(tables.script_name(wrong, "en", ScriptChain::Light), Err(Refusal::InvalidSubtag), "{wrong}");
    }
    for wrong in ["", "USA", "Latn", "US-fonipa", " US", "US\n"] {
        assert_eq!(tables.region_name(wrong, "en", RegionChain::Light), Err(Refusal::InvalidSubtag), "{wrong}");
    }
    for wrong in ["", "US", "abc", "fonipa-1996"] {
        assert_eq!(tables.variant_name(wrong, "en"), Err(Refusal::InvalidSubtag), "{wrong}");
    }
    for preferences in ["", "e", "en-fonipa", "en en", "en json"] {
        assert_eq!(tables.language_name("de", preferences, Chain::Tiny), Err(Refusal::Preferences), "{preferences}");
        assert_eq!(tables.script_name("Latn", preferences, ScriptChain::Tiny), Err(Refusal::Preferences), "{preferences}");
        assert_eq!(tables.region_name("US", preferences, RegionChain::Tiny), Err(Refusal::Preferences), "{preferences}");
        assert_eq!(tables.variant_name("fonipa", preferences), Err(Refusal::Preferences), "{preferences}");
        assert_eq!(tables.has_exemplar(ExemplarSet::Main, preferences, "a"), Err(Refusal::Preferences), "{preferences}");
    }
}

#[test]
fn lists() {
    let tables = small();
    for (kind, wanted) in [
        (SubtagKind::Languages, &["en", "it", "ku"][..]),
        (SubtagKind::Scripts, &["Latn"]),
        (SubtagKind::Regions, &["150", "US"]),
        (SubtagKind::Variants, &["fonipa"]),
    ] {
        assert_eq!(tables.listed(kind, "en").unwrap(), wanted);
        assert_eq!(tables.listed(kind, "de"), Ok(Vec::new()));
    }
    for locale in ["", "e", "en-", "en-fonipa"] {
        assert_eq!(tables.listed(SubtagKind::Regions, locale), Err(Refusal::Preferences), "{locale}");
    }
}

#[test]
fn exemplars() {
    let tables = small();
    for (text, wanted) in [("a", true), ("z", true), ("ng", true), ("A", false), ("ab", false), ("", false), ("a\n", false), ("\u{e4}", false)] {
        assert_eq!(tables.has_exemplar(ExemplarSet::Main, "en", text), Ok(wanted), "{text}");
    }
    let refusal = Refusal::Table { member: "exemplars" };
    assert_eq!(tables.has_exemplar(ExemplarSet::Main, "de", "a"), Err(refusal));
    assert_eq!(refusal.to_string(), "the tables leave out `exemplars` of that set and locale, which is needed");
    assert_eq!(tables.answer("exemplars main en", b"\xff"), Err(Refusal::InvalidText));
    assert!(Refusal::InvalidText.to_string().contains("UTF-8"));
}

#[test]
fn names_of_data() {
    let long = "x".repeat(1000);
    for (supplement, wanted) in [
        (VALIDITY.to_owned(), Some("41")),
        ("{}".to_owned(), None),
        (r#"{"cldr":""}"#.to_owned(), Some("")),
        (r#"{"cldr":"4\u00e9\n"}"#.to_owned(), Some("4\u{e9}\n")),
        (format!(r#"{{"cldr":"{long}"}}"#), Some(long.as_str())),
    ] {
        let tables = with_supplement(&supplement);
        assert_eq!(tables.share().unwrap().data_name().unwrap().as_deref(), wanted);
        assert_eq!(tables.data_name().unwrap().as_deref(), wanted);
    }
    assert_eq!(Tables::from_json(EXAMPLE.as_bytes()).unwrap().data_name(), Ok(None));
}

#[test]
fn over_cldr() {
    let Some(tables) = opened(&["en", "de"]) else { return };
    reports(&tables);
    assert_eq!(tables.data_name().unwrap().as_deref(), cldr_version());
    let region = |subtag, locale, chain| tables.region_name(subtag, locale, chain);
    assert_eq!(region("us", "en", RegionChain::Light), name("United States", false));
    assert_eq!(region("GB", "de", RegionChain::ShortLight), name("UK", false));
    assert_eq!(region("GB", "de", RegionChain::ShortTiny), name("UK", false));
    assert_eq!(region("419", "de", RegionChain::Light), name("Lateinamerika", false));
    assert_eq!(region("US", "en", RegionChain::Tiny), name("United States", false));
    assert_eq!(region("qx", "en", RegionChain::Light), name("QX", true));
    assert_eq!(tables.script_name("Hans", "en", ScriptChain::Light), name("Simplified", false));
    assert_eq!(tables.script_name("Xsux", "en", ScriptChain::Heavy), name("Sumero-Akkadian Cuneiform", false));
    assert_eq!(tables.script_name("Xsux", "en", ScriptChain::ShortHeavy), name("S-A Cuneiform", false));
    assert_eq!(tables.language_name("ZH", "en", Chain::LongLight), name("Mandarin Chinese", false));
    assert_eq!(tables.variant_name("1996", "de"), name("Neue deutsche Rechtschreibung", false));
    for (set, locale, there, elsewhere) in [
        (ExemplarSet::Main, "de", "az\u{e4}\u{df}", "A\u{e9}"),
        (ExemplarSet::Auxiliary, "en", "\u{e4}\u{e9}", "az"),
        (ExemplarSet::Index, "en", "AZ", "a\u{c4}"),
        (ExemplarSet::Numbers, "en", ",.%09", "a!"),
        (ExemplarSet::Punctuation, "de", "\u{201e}\u{ab}!", "a0"),
    ] {
        for each in there.chars().chain(elsewhere.chars()) {
            assert_eq!(tables.has_exemplar(set, locale, &each.to_string()), Ok(there.contains(each)), "{each}");
        }
    }
}

#[test]
fn lists_over_cldr() {
    let Some(tables) = opened(&["de"]) else { return };
    for (kind, some) in [
        (SubtagKind::Languages, ["de", "gsw", "zh"]),
        (SubtagKind::Scripts, ["Arab", "Latn", "Xsux"]),
        (SubtagKind::Regions, ["419", "DE", "US"]),
        (SubtagKind::Variants, ["1996", "fonipa", "posix"]),
    ] {
        let found = tables.listed(kind, "de").unwrap();
        assert!(found.windows(2).all(|pair| pair[0] < pair[1]) && some.iter().all(|it| found.contains(&(*it).to_owned())));
        assert_eq!(tables.listed(kind, "en"), Ok(Vec::new()));
    }
}

// The words are those that there are.
#[test]
fn words() {
    let Some(tables) = opened(&["en"]) else { return };
    for chain in ScriptChain::ALL {
        assert_eq!(tables.script_name("Latn", "en", *chain), name("Latin", false), "{}", chain.as_str());
    }
    for chain in RegionChain::ALL {
        assert!(tables.region_name("US", "en", *chain).is_ok_and(|it| !it.is_raw), "{}", chain.as_str());
    }
    for set in ExemplarSet::ALL {
        assert_eq!(tables.has_exemplar(*set, "en", ""), Ok(false), "{}", set.as_str());
    }
}

//! The names of the crate icu_locale: what its documentation says that they answer, and what its types keep.
use icu_locale_calls::icu_locale::exemplar_chars::{ExemplarCharacters, ExemplarCharactersBorrowed};
use icu_locale_calls::icu_locale::names::*;
use icu_locale_calls::icu_locale::subtags::{language, region, script, variant, Language, Region, Script, Variant, Variants};
use icu_locale_calls::icu_locale::*;
use icu_locale_calls::{Refusal, Tables};
use std::collections::{BTreeSet, HashSet};

fn is_without_data() -> bool {
    Tables::cldr(&[]).err() == Some(Refusal::NoData)
}

type Call = fn(&LocaleExpander, &mut LanguageIdentifier) -> TransformResult;

#[test]
fn likely_subtags() {
    if is_without_data() {
        return;
    }
    let (maximize, minimize): (Call, Call) = (LocaleExpander::maximize, LocaleExpander::minimize);
    let rows = [
        (maximize, "zh-CN", "zh-Hans-CN"),
        (maximize, "zh-Hant-TW", "zh-Hant-TW"),
        (maximize, "atj", "atj-Latn-CA"),
        (maximize, "ccp", "ccp-Cakm-BD"),
        (maximize, "mul", "mul"),
        (minimize, "zh-Hans-CN", "zh"),
        (minimize, "zh", "zh"),
        (LocaleExpander::minimize_favor_script, "zh-TW", "zh-Hant"),
    ];
    const EXPANDER: LocaleExpander = LocaleExpander::new_extended();
    for (call, from, to) in rows {
        let mut found: Locale = from.parse().unwrap();
        let wanted = if from == to { TransformResult::Unmodified } else { TransformResult::Modified };
        assert_eq!(call(&EXPANDER, &mut found.id), wanted, "{from}");
        assert_eq!(found, to.parse::<Locale>().unwrap());
    }
}

// Extensions stay, and what is no change leaves all as it is.
#[test]
fn canonical_forms() {
    if is_without_data() {
        return;
    }
    let canonicalizer = LocaleCanonicalizer::new_with_expander(LocaleExpander::new_common());
    for (from, to) in [
        ("ja-Latn-fonipa-hepburn-heploc", "ja-Latn-alalc97-fonipa"),
        ("iw-t-iw-m0-names-u-ca-islamicc-x-a-b", "he-t-he-m0-prprname-u-ca-islamic-civil-x-a-b"),
        ("en-a-foo-z-bar-x-y", "en-a-foo-z-bar-x-y"),
    ] {
        let mut found: Locale = from.parse().unwrap();
        let wanted = if from == to { TransformResult::Unmodified } else { TransformResult::Modified };
        assert_eq!(canonicalizer.canonicalize(&mut found), wanted, "{from}");
        assert_eq!(found.to_string(), to);
    }
}

#[test]
fn directions() {
    if is_without_data() {
        return;
    }
    let directionality = LocaleDirectionality::new_with_expander(LocaleExpander::new_extended());
    let (left, right) = (Some(Direction::LeftToRight), Some(Direction::RightToLeft));
    for (text, wanted) in
        [("en", left), ("en-US", left), ("ar", right), ("en-Arab", right), ("ckb", right), ("foo", None), ("und-Latn", left)]
    {
        let langid: LanguageIdentifier = text.parse().unwrap();
        assert_eq!(directionality.get(&langid), wanted, "{text}");
        assert_eq!(directionality.is_left_to_right(&langid), wanted == left);
        assert_eq!(directionality.is_right_to_left(&langid), wanted == right);
    }
    assert_eq!(directionality.get(&LanguageIdentifier::from(Some(script!("Latn")))), left);
}

type Made = fn(
    DisplayNamesPreferences,
    LanguageIdentifier,
    LanguageIdentifierDisplayNameOptions,
) -> Result<LanguageIdentifierDisplayName, DataError>;

#[test]
fn names_of_identifiers() {
    if is_without_data() {
        return;
    }
    let rows: [(Made, &str, &str, &str, bool); 9] = [
        (LanguageIdentifierDisplayName::try_new_light, "en", "fr-CA", "Canadian French", false),
        (LanguageIdentifierDisplayName::try_new_light, "en", "it-Qabc-150", "Italian (Qabc, Europe)", true),
        (LanguageIdentifierDisplayName::try_new_light, "de", "fr-CA", "Franz\u{f6}sisch (Kanada)", false),
        (LanguageIdentifierDisplayName::try_new_tiny, "fr", "fr", "fran\u{e7}ais", false),
        (LanguageIdentifierDisplayName::try_new_short_light, "en", "en-US", "US English", false),
        (LanguageIdentifierDisplayName::try_new_long_light, "en", "zh", "Mandarin Chinese", false),
        (LanguageIdentifierDisplayName::try_new_menu_light, "en", "zh", "Chinese, Mandarin", false),
        (LanguageIdentifierDisplayName::try_new_short_heavy, "en", "az", "Azeri", false),
        (LanguageIdentifierDisplayName::try_new_heavy, "zh-TW", "it", "\u{7fa9}\u{5927}\u{5229}\u{6587}", false),
    ];
    for (made, locale, subject, wanted, is_raw) in rows {
        let prefs = DisplayNamesPreferences::from(locale.parse::<Locale>().unwrap());
        let name = made(prefs, subject.parse().unwrap(), Default::default()).unwrap();
        assert_eq!((name.to_string().as_str(), name.is_whole().is_err()), (wanted, is_raw), "{subject} in {locale}");
        assert_eq!(name.as_borrowed().to_string(), wanted);
    }
    let nowhere = LanguageIdentifierDisplayName::try_new_light(locale!("tlh").into(), langid!("en"), Default::default());
    assert_eq!(nowhere, Err(Refusal::NameMissing));
}

// What Intl.DisplayNames of Node.js 20 says of languages by its option languageDisplay, `dialect` and `standard`.
#[test]
fn names_of_dialects() {
    if is_without_data() {
        return;
    }
    let rows = [
        ("en", "en-US", "American English", "English (United States)"),
        ("en", "en-GB", "British English", "English (United Kingdom)"),
        ("en", "de-AT", "Austrian German", "German (Austria)"),
        ("en", "zh-Hant", "Traditional Chinese", "Chinese (Traditional)"),
        ("en", "es-419", "Latin American Spanish", "Spanish (Latin America)"),
        ("en", "sr-Latn-RS", "Serbian (Latin, Serbia)", "Serbian (Latin, Serbia)"),
        ("en", "it", "Italian", "Italian"),
        ("de", "de-AT", "\u{d6}sterreichisches Deutsch", "Deutsch (\u{d6}sterreich)"),
        ("fr", "fr-CA", "fran\u{e7}ais canadien", "fran\u{e7}ais (Canada)"),
        ("nl", "nl-BE", "Vlaams", "Nederlands (Belgi\u{eb})"),
        ("ja", "zh-Hant", "\u{7e41}\u{4f53}\u{4e2d}\u{56fd}\u{8a9e}", "\u{4e2d}\u{56fd}\u{8a9e} (\u{7e41}\u{4f53}\u{5b57})"),
        ("es", "es-MX", "espa\u{f1}ol de M\u{e9}xico", "espa\u{f1}ol (M\u{e9}xico)"),
        ("sv", "en-AU", "australisk engelska", "engelska (Australien)"),
    ];
    for (locale, subject, dialect, standard) in rows {
        let prefs = DisplayNamesPreferences::from(locale.parse::<Locale>().unwrap());
        let shown = [(None, dialect), (Some(LanguageDisplay::Dialect), dialect), (Some(LanguageDisplay::Standard), standard)];
        for (display, wanted) in shown {
            let mut options = LanguageIdentifierDisplayNameOptions::default();
            options.language_display = display;
            let name = LanguageIdentifierDisplayName::try_new_heavy(prefs, subject.parse().unwrap(), options).unwrap();
            assert_eq!(name.to_string(), wanted, "{subject} in {locale}, {display:?}");
        }
    }
    let mut options = LanguageIdentifierDisplayNameOptions::default();
    options.language_display = Some(LanguageDisplay::Standard);
    let menu = LanguageIdentifierDisplayName::try_new_menu_light(locale!("en").into(), langid!("zh-Hant"), options);
    assert_eq!(menu.unwrap().to_string(), "Chinese, Mandarin (Traditional)");
    let short = LanguageIdentifierDisplayName::try_new_short_heavy(locale!("en").into(), langid!("en-GB"), options);
    assert_eq!(short.unwrap().to_string(), "English (UK)");
    let nowhere = LanguageIdentifierDisplayName::try_new_light(locale!("tlh").into(), langid!("en"), options);
    assert_eq!(nowhere, Err(Refusal::NameMissing));
}

#[test]
fn names_of_parts() {
    if is_without_data() {
        return;
    }
    let (en, de, zh) = (locale!("en"), locale!("de"), locale!("zh"));
    let region = RegionDisplayName::try_new_light;
    assert_eq!(region((&en).into(), region!("US")).unwrap().to_string(), "United States");
    assert_eq!(region((&en).into(), region!("AD")).unwrap().as_borrowed().to_string(), "Andorra");
    assert_eq!(region((&de).into(), region!("DE")).unwrap().to_string(), "Deutschland");
    assert_eq!(region((&zh).into(), region!("DE")).unwrap().to_string(), "\u{5fb7}\u{56fd}");
    let short = [("GB", "UK"), ("US", "US"), ("DE", "Germany")];
    for (text, wanted) in short {
        let subtag = Region::try_from_str(text).unwrap();
        assert_eq!(RegionDisplayName::try_new_short_light((&en).into(), subtag).unwrap().to_string(), wanted);
        assert_eq!(RegionDisplayName::new_short_tiny_with_fallback((&en).into(), subtag).to_string(), wanted);
    }
    assert_eq!(region((&en).into(), region!("QX")).err(), Some(Refusal::NameMissing));
    assert_eq!(RegionDisplayName::new_light_with_fallback((&en).into(), region!("QX")).to_string(), "QX");
    assert_eq!(ScriptDisplayName::try_new_light((&en).into(), script!("Arab")).unwrap().to_string(), "Arabic");
    assert_eq!(RegionDisplayName::new_tiny_with_fallback((&de).into(), region!("GB")).to_string(), "Vereinigtes K\u{f6}nigreich");
    assert_eq!(ScriptDisplayName::new_heavy_with_fallback((&en).into(), script!("Qabc")).to_string(), "Qabc");
    assert_eq!(ScriptDisplayName::new_short_heavy_with_fallback((&en).into(), script!("Xsux")).to_string(), "S-A Cuneiform");
    assert_eq!(ScriptDisplayName::try_new_short_heavy((&de).into(), script!("Latn")).unwrap().to_string(), "Lateinisch");
    assert_eq!(ScriptDisplayName::try_new_tiny((&locale!("bs")).into(), script!("Cyrl")).unwrap().to_string(), "\u{107}irilica");
    let variant = VariantDisplayName::try_new_heavy((&en).into(), variant!("fonipa")).unwrap();
    assert_eq!(variant.as_borrowed().to_string(), "IPA Phonetics");
    assert_eq!(VariantDisplayName::new_heavy_with_fallback((&en).into(), variant!("abcde")).to_string(), "abcde");
}

type Set = fn(&DataLocale) -> Result<ExemplarCharactersBorrowed<'static>, DataError>;

// What main/en.xml of CLDR has in each set, and what it has not.
#[test]
fn exemplar_characters() {
    if is_without_data() {
        return;
    }
    let rows: [(Set, &str, &str); 5] = [
        (ExemplarCharacters::try_new_main, "az", "\u{e4}A0"),
        (ExemplarCharacters::try_new_auxiliary, "\u{e4}\u{ff}", "azA"),
        (ExemplarCharacters::try_new_punctuation, ",.!?", "09%"),
        (ExemplarCharacters::try_new_numbers, "09%,.", "!?a"),
        (ExemplarCharacters::try_new_index, "AZ", "az\u{e4}"),
    ];
    for (made, there, elsewhere) in rows {
        for locale in [locale!("en"), locale!("en-001"), locale!("en-US-u-ca-roc")] {
            let set = made(&locale.into()).unwrap();
            for each in there.chars().chain(elsewhere.chars()) {
                let wanted = there.contains(each);
                assert_eq!((set.contains(each), set.contains32(u32::from(each))), (wanted, wanted), "{each}");
                assert_eq!(set.static_to_owned().as_borrowed().contains_str(&each.to_string()), wanted, "{each}");
            }
            assert!(!set.contains_str("ng") && !set.contains_str("") && !set.contains32(0xd800));
        }
    }
    assert_eq!(ExemplarCharacters::try_new_main(&locale!("tlh").into()).err(), Some(Refusal::NameMissing));
    assert!(ExemplarCharactersBorrowed::try_new_main(&langid!("hu").into()).unwrap().contains_str("dzs"));
}

#[test]
fn subtags_are_read() {
    assert_eq!((language!("EN").as_str(), Language::UNKNOWN.to_string()), ("en", "und".to_owned()));
    assert!(language!("und").is_unknown() && !language!("de").is_unknown());
    for text in ["", "e", "en-US", "engl", "\u{e9}n", "en-u-ca-roc"] {
        assert_eq!(Language::try_from_str(text), Err(ParseError::InvalidLanguage), "{text}");
    }
    for text in ["", "Lat", "latn-US", "US", "Lat1", "en-Latn"] {
        assert_eq!(Script::try_from_str(text), Err(ParseError::InvalidSubtag), "{text}");
    }
    for text in ["", "U", "Latn", "US-fonipa", "00", "USA"] {
        assert_eq!(Region::try_from_str(text), Err(ParseError::InvalidSubtag), "{text}");
    }
    for text in ["", "abc", "fonipa-1996", "US", "u-ca"] {
        assert_eq!(Variant::try_from_str(text), Err(ParseError::InvalidSubtag), "{text}");
    }
    assert_eq!((script!("lATN").as_str(), region!("us").as_str(), region!("001").as_str()), ("Latn", "US", "001"));
    assert_eq!(Variant::try_from_utf8(b"1996").unwrap(), variant!("1996"));
    assert!(Script::try_from_utf8(b"\xff").is_err());
}

// A text that is read is written as the library writes it, and read again it is the same.
#[test]
fn texts() {
    let texts = [
        "und", "zh_hant_tw", "sl-rozaj-biske-a-foo-t-de-latn-m0-din-u-attr-kn-x-one-two", "en-u-kn-true-ca-islamic-civil",
        "en-t-m0-din", "de-x-a", "en-z-foo-b-bar", "ja-t-en-US-fonipa-k0-dvorak-windows", "en-u-attr-battr",
    ];
    for text in texts {
        let locale: Locale = text.parse().unwrap();
        assert_eq!(locale.to_string(), text.parse::<icu_locale_calls::Locale>().unwrap().to_string());
        assert_eq!(locale, locale.to_string().parse().unwrap());
        assert_eq!(Locale::normalize(text).unwrap(), locale.to_string());
    }
    assert_eq!("en-u-ca-roc".parse::<LanguageIdentifier>(), Err(ParseError::InvalidSubtag));
    assert_eq!(LanguageIdentifier::try_from_utf8(b"\xff"), Err(ParseError::InvalidLanguage));
    assert!(Locale::UNKNOWN.is_unknown() && LanguageIdentifier::default().is_unknown() && Extensions::new().is_empty());
}

#[test]
fn parts_are_public_and_ordered() {
    let mut langid = LanguageIdentifier::from((language!("de"), None, Some(region!("AT"))));
    langid.variants = Variants::from_vec_unchecked(vec![variant!("fonipa"), variant!("1996"), variant!("fonipa")]);
    assert_eq!(langid, langid!("de-AT-1996-fonipa"));
    assert_eq!(langid.variants.clear().len(), 2);
    assert_eq!(langid.to_string(), "de-AT");
    let locales = ["de-AT", "DE_at", "de", "fr", "de-u-co-phonebk"].map(|text| text.parse::<Locale>().unwrap());
    assert_eq!(locales.iter().collect::<HashSet<_>>().len(), 4);
    let ordered: Vec<String> = locales.iter().collect::<BTreeSet<_>>().into_iter().map(Locale::to_string).collect();
    assert_eq!(ordered, ["de", "de-u-co-phonebk", "de-AT", "fr"]);
}

#[test]
#[should_panic(expected = "english")]
fn a_text_that_is_none() {
    let _ = locale!("english");
}

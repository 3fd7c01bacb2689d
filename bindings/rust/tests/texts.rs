//! Locales are texts of serde.
#![cfg(feature = "serde")]
use icu_locale_calls::icu_locale::subtags::{region, script, Region, Script};
use icu_locale_calls::icu_locale::{langid, locale, LanguageIdentifier};
use icu_locale_calls::Locale;
use serde_json::{from_str, to_string};

#[test]
fn both_ways() {
    assert_eq!(to_string(&locale!("zh_hant_tw-u-nu-hanidec")).unwrap(), r#""zh-Hant-TW-u-nu-hanidec""#);
    assert_eq!(from_str::<LanguageIdentifier>(r#""DE-at""#).unwrap(), langid!("de-AT"));
    assert_eq!(from_str::<(Script, Region)>(r#"["latn","us"]"#).unwrap(), (script!("Latn"), region!("US")));
    let kept: Locale = from_str(r#""de-u-co-phonebk""#).unwrap();
    assert_eq!(to_string(&[kept]).unwrap(), r#"["de-u-co-phonebk"]"#);
}

#[test]
fn what_is_no_locale() {
    let fault = from_str::<Locale>(r#""de-""#).unwrap_err().to_string();
    assert!(fault.contains(r#""de-": a subtag is none"#), "{fault}");
    assert!(from_str::<Locale>("5").is_err());
    assert!(from_str::<LanguageIdentifier>(r#""de-u-co-phonebk""#).is_err());
}

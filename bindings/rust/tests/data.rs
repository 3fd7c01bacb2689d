//! CLDR's data inside the crate. In a clone `tools/package-data out/data` makes it; without data nothing is tried but the
//! refusal.
use icu_locale_calls::{cldr_locales, cldr_version, MenuRow, Refusal, SubtagKind, Tables, EXAMPLE};

// The tables of some locales, and none where the crate has no data.
fn opened(locales: &[&str]) -> Option<Tables> {
    match Tables::cldr(locales) {
        Err(Refusal::NoData) => None,
        tables => Some(tables.unwrap()),
    }
}

#[test]
fn answers() {
    let Some(tables) = opened(&["en"]) else { return };
    assert_eq!(tables.is_settled(), Ok(true));
    assert_eq!(tables.maximize("zh-TW").as_deref(), Ok("zh-Hant-TW"));
    assert_eq!(tables.canonicalize("en-u-ca-islamicc").as_deref(), Ok("en-u-ca-islamic-civil"));
    assert_eq!(tables.fallback("en-AU").unwrap(), ["en-AU", "en-001", "en", "und"]);
    assert_eq!(tables.name("de-AT", "en").as_deref(), Ok("Austrian German"));
    assert_eq!(tables.name("it", "de"), Err(Refusal::NameMissing));
    assert_eq!(tables.serve(["iw, zh-HK;q=0.1"], ["en", "he", "zh-Hant"]), Ok(Some("he")));
    assert_eq!(tables.serve(["gsw"], ["en", "de"]), Ok(Some("de")));
}

// Subdivisions and time zones have no names in the data inside.
#[test]
fn extensions() {
    let Some(tables) = opened(&["en", "de"]) else { return };
    assert_eq!(tables.name("en-u-ca-buddhist", "en").as_deref(), Ok("English (Buddhist Calendar)"));
    assert_eq!(
        tables.name("ja-t-en-u-hc-h12", "de").as_deref(),
        Ok("Japanisch (t: Englisch, 12-Stunden-Format [1-12])")
    );
    assert_eq!(
        tables.name("de-u-cu-eur-rg-ustx", "en").as_deref(),
        Ok("German (Currency: \u{20ac}, Region For Supplemental Data: ustx)")
    );
}

#[test]
fn locales() {
    let Some(none) = opened(&[]) else { return };
    assert_eq!(none.maximize("zh-TW").as_deref(), Ok("zh-Hant-TW"));
    assert_eq!(none.name("it", "en"), Err(Refusal::NameMissing));
    let tables = opened(&["EN_gb", "en-GB", "zh_hant", "en_gb", "zh-Hant-HK"]).unwrap();
    assert_eq!(tables.name("it", "en-GB").as_deref(), Ok("Italian"));
    assert_eq!(tables.name("it", "zh-Hant").as_deref(), Ok("\u{7fa9}\u{5927}\u{5229}\u{6587}"));
    assert_eq!(tables.name("it", "zh-Hant-HK").as_deref(), Ok("\u{610f}\u{5927}\u{5229}\u{6587}"));
    assert_eq!(tables.name("it", "en"), Err(Refusal::NameMissing));
    for faulty in ["xx", "all", "", "no locale", "base-and-supplement", "copyright", "../data/en", "en\0", "\u{212a}l"] {
        assert_eq!(Tables::cldr(&["en", faulty]).err(), Some(Refusal::NoLocale { place: 1 }), "{faulty}");
    }
}

// In the place of a locale comes the first of its chain.
#[test]
fn chains() {
    let Some(tables) = opened(&["zh_TW", "en-XX", "sr-Latn-XX", "de-u-co-phonebk"]) else { return };
    assert_eq!(tables.name("it", "zh-Hant-TW").as_deref(), Ok("\u{7fa9}\u{5927}\u{5229}\u{6587}"));
    assert_eq!(tables.name_by_fallback("it", "zh-TW").as_deref(), Ok("\u{7fa9}\u{5927}\u{5229}\u{6587}"));
    for (locale, wanted) in [("en", "Italian"), ("sr-Latn", "italijanski"), ("de", "Italienisch")] {
        assert_eq!(tables.name("it", locale).as_deref(), Ok(wanted), "{locale}");
    }
    let locales = cldr_locales();
    assert!(locales.windows(2).all(|pair| pair[0] < pair[1]));
    assert!(locales.iter().step_by(50).all(|locale| Tables::cldr(&[locale]).is_ok()));
    assert!(locales.contains(&"zh-Hant") && !locales.contains(&"zh-TW"));
    assert!(cldr_version().is_some_and(|version| version.chars().all(|it| it.is_ascii_digit() || it == '.')));
}

// Names by every locale, and by one at a time.
#[test]
fn every_locale() {
    let Some(every) = opened(&["all"]) else { return };
    for locale in ["de", "zh-Hant-HK", "en-GB", "sr-Latn", "hi", "yue", "af", "zu"] {
        let one = opened(&[locale]).unwrap();
        for identifier in ["it", "de-AT", "zh-Hant-TW", "sr-Latn-RS", "und-419", "en-u-ca-buddhist", "en-"] {
            assert_eq!(every.name(identifier, locale), one.name(identifier, locale), "{identifier} in {locale}");
        }
    }
}

// What is lent stays as long as what was made of the tables, and is no name of their own.
#[test]
fn names_that_are_lent() {
    let Some(every) = opened(&["all"]) else { return };
    let one = opened(&["de"]).unwrap();
    for kind in [SubtagKind::Languages, SubtagKind::Scripts, SubtagKind::Regions, SubtagKind::Variants] {
        assert_eq!(every.listed(kind, "de"), one.listed(kind, "de"));
    }
    assert_eq!(every.flat_names().map(|names| names.len()), Ok(20));
    let switcher = every.switcher(["en", "de"]).unwrap();
    let other = every.share().unwrap();
    drop(every);
    assert_eq!(other.name("it", "de").as_deref(), Ok("Italienisch"));
    assert_eq!(switcher.serve(["de-AT"]), Ok(Some("de")));
}

fn row(locale: &str, name: &str, own: &str) -> MenuRow {
    MenuRow { locale: locale.to_owned(), name: name.to_owned(), own: own.to_owned() }
}

#[test]
fn menus() {
    let Some(tables) = opened(&["ja", "fr", "en"]) else { return };
    let wanted = [
        row("en", "English", "English"),
        row("fr", "French", "fran\u{e7}ais"),
        row("ja", "Japanese", "\u{65e5}\u{672c}\u{8a9e}"),
    ];
    assert_eq!(tables.menu(["ja", "fr", "en"], "en").unwrap(), wanted);
    assert_eq!(tables.menu_by_fallback(["fr-CA"], "en-AU").unwrap()[0].own, "fran\u{e7}ais canadien");
    assert_eq!(tables.menu(["fr-CA"], "en"), Err(Refusal::NameMissing));
    assert_eq!(tables.menu(["fr"], "de"), Err(Refusal::NameMissing));
    assert_eq!(tables.menu(["f"], "en"), Err(Refusal::InvalidLanguage));
    let none: [&str; 0] = [];
    assert_eq!(tables.menu(none, "en").unwrap(), []);
}

#[test]
fn small_tables() {
    let tables = Tables::from_json(EXAMPLE.as_bytes()).unwrap();
    assert_eq!(tables.menu(["en"], "en").unwrap(), [row("en", "English", "English")]);
    assert!(Refusal::NoData.to_string().contains("from_json"));
    assert!(Refusal::NoLocale { place: 5 }.to_string().contains("place 5"));
}

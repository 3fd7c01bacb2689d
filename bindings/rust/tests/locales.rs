//! A locale as a value: each of its parts, and what is refused.
use icu_locale_calls::{Locale, Refusal, Syntax, Tables, EXAMPLE};

fn row(key: &str, value: &str) -> (String, String) {
    (key.to_owned(), value.to_owned())
}

#[test]
fn each_part_is_told() {
    let locale: Locale = "sl-rozaj-biske-a-foo-t-de-m0-din-u-attr-kn-x-one-two".parse().unwrap();
    assert_eq!((locale.language(), locale.script(), locale.region()), ("sl", None, None));
    assert_eq!(locale.variants(), ["biske", "rozaj"]);
    assert_eq!(locale.attributes(), ["attr"]);
    assert_eq!((locale.keywords(), locale.keyword("kn")), (&[row("kn", "")][..], Some("")));
    assert_eq!((locale.transform_language(), locale.fields()), (Some("de"), &[row("m0", "din")][..]));
    assert_eq!((locale.extensions(), locale.private_use()), (&[row("a", "foo")][..], Some("one-two")));
    let all = "sl-biske-rozaj-a-foo-t-de-m0-din-u-attr-kn-x-one-two";
    assert_eq!((locale.as_str(), locale.to_string()), (all, all.to_owned()));
}

#[test]
fn locales_are_compared_as_they_are_written() {
    let [one, same, other] = ["DE-de", "de_DE", "de-AT"].map(|it| it.parse::<Locale>().unwrap());
    assert_eq!(one, same);
    assert!(other < one);
    let tables = Tables::from_json(EXAMPLE.as_bytes()).unwrap();
    assert_eq!(tables.maximize(one.as_ref()), tables.maximize("de-DE"));
    assert_eq!(format!("{one:>7}"), "  de-DE");
}

#[test]
fn what_is_no_locale_is_refused() {
    assert_eq!("".parse::<Locale>(), Err(Refusal::InvalidLanguage));
    assert_eq!("en-u".parse::<Locale>(), Err(Refusal::InvalidSubtag));
    assert_eq!(Locale::read("i-klingon", Syntax::Locales), Err(Refusal::InvalidLanguage));
    assert_eq!(Locale::read("i-klingon", Syntax::Bcp47).unwrap().as_str(), "tlh");
}

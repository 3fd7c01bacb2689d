//! Names that are lent to tables in the flat form: what is asked first, what is refused, and what stays.
use icu_locale_calls::{Refusal, Tables, EXAMPLE};

const REST: &str = r#""essentials": {"en": {"pattern": [0, " (", 1, ")"], "separator": [0, ", ", 1]}},
    "likely_language": {"und": ["en", "Latn", "US"]}, "likely_script_region": {}"#;
const NONE: &[u8] = b"ICUTEXT1\0\0\0\0\0\0\0\0\0\0\0\0";

// Tables with regions in English alone.
fn tables_of(regions: &str) -> Tables {
    let json = format!(r#"{{{REST}, "names": {{"region/medium/light": {{"en": {{{regions}}}}}}}}}"#);
    Tables::from_json(json.as_bytes()).unwrap()
}

fn flat(regions: &str) -> &'static [u8] {
    tables_of(regions).flat_names().unwrap().leak()
}

fn named(tables: &Tables) -> Vec<String> {
    let name = |region| tables.region_name(region, "en", Default::default()).unwrap().text;
    ["150", "US", "QX"].map(name).to_vec()
}

#[test]
fn own_names_come_first() {
    let mut tables = tables_of(r#""US": "own""#);
    assert_eq!(named(&tables), ["150", "own", "QX"]);
    tables.lend_names(flat(r#""150": "Europe", "US": "lent""#)).unwrap();
    assert_eq!(named(&tables), ["Europe", "own", "QX"]);
    assert_eq!(tables.name("it-150", "en").as_deref(), Ok("it (Europe)"));
    assert_eq!(tables.flat_names().unwrap(), flat(r#""US": "own""#));
    tables.lend_names(flat(r#""QX": "Europa""#)).unwrap();
    assert_eq!(named(&tables), ["150", "own", "Europa"]);
    tables.lend_names(NONE).unwrap();
    assert_eq!(named(&tables), ["150", "own", "QX"]);
}

#[test]
fn what_is_refused() {
    let (lent, other) = (flat(r#""150": "Europe", "US": "lent""#), flat(r#""QX": "Europa""#));
    let mut tables = tables_of("");
    tables.lend_names(lent).unwrap();
    for length in 0..lent.len() {
        assert_eq!(tables.lend_names(&lent[..length]), Err(Refusal::Shape), "{length}");
    }
    assert_eq!(named(&tables), ["Europe", "lent", "QX"]);
    let shared = tables.share().unwrap();
    assert_eq!(tables.lend_names(other), Err(Refusal::Shared));
    assert_eq!(tables.lend_names(b""), Err(Refusal::Shape));
    drop(shared);
    let negotiator = tables.switcher(["en"]).unwrap();
    assert_eq!(tables.lend_names(other), Err(Refusal::Shared));
    assert_eq!(named(&tables), ["Europe", "lent", "QX"]);
    drop(negotiator);
    tables.lend_names(other).unwrap();
    assert_eq!(named(&tables), ["150", "US", "Europa"]);
    for (length, wanted) in [(65535, None), (65536, Some(Refusal::Shape))] {
        assert_eq!(tables_of(&format!(r#""US": "{}""#, "x".repeat(length))).flat_names().err(), wanted);
    }
}

#[test]
fn threads() {
    let mut tables = Tables::from_json(format!("{{{REST}}}").as_bytes()).unwrap();
    tables.lend_names(Tables::from_json(EXAMPLE.as_bytes()).unwrap().flat_names().unwrap().leak()).unwrap();
    let tables = tables.share().unwrap();
    std::thread::scope(|scope| {
        for _ in 0..4 {
            scope.spawn(|| (0..200).for_each(|_| assert_eq!(tables.name("it-US", "en").as_deref(), Ok("Italian (United States)"))));
        }
    });
}

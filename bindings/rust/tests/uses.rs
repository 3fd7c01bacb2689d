//! Wrong uses, long answers, and threads, each with its own and all with one.
use icu_locale_calls::{
    Direction, Match, MatchOptions, Negotiator, Refusal, Resolved, Switcher, Syntax, Tables, EXAMPLE, EXAMPLE_SUPPLEMENT,
};

const UNSETTLED: &str = r#"{"likely_language":{"und":["en","Latn","US"],"language":{"xx":["Zzzz","DE"]}},
 "likely_script_region":{}}"#;
// What is no identifier, and what would be none or two in a line.
const FAULTY: [&str; 10] = ["", " ", "en ", " en", "en zh", "e", "en-", "en\n", "en\0", "\u{e9}n"];

#[test]
fn refusals() {
    let tables = Tables::from_json(b"{}").unwrap();
    assert_eq!(tables.maximize("en"), Err(Refusal::Table { member: "likely_language" }));
    assert_eq!(tables.is_settled(), Err(Refusal::Table { member: "likely_language" }));
    assert_eq!(tables.name("en", "en"), Err(Refusal::NameMissing));
    for preferences in ["en-fonipa", "", "e", "en en", "en-u-ca-roc"] {
        assert_eq!(tables.name("en", preferences), Err(Refusal::Preferences), "{preferences}");
    }
    for command in ["negotiate", "serve", "nearest", "locales nearest", "resolved", "threshold 9 or-first serve"] {
        assert_eq!(tables.answer(command, b"en"), Err(Refusal::Negotiate));
    }
    for command in ["", "threshold 65536 serve", "or-first demotion 0 serve", "favor-script negotiate", "threshold serve"] {
        assert_eq!(tables.answer(command, b"\xff"), Err(Refusal::Command), "{command}");
    }
}

#[test]
fn fallback() {
    let parents = r#"{"parents":{"en-AU":"en-001","aa":"qbb","qbb":"aa"}}"#;
    let tables = Tables::from_json_with(EXAMPLE.as_bytes(), parents.as_bytes()).unwrap();
    for each in [tables.share().unwrap(), tables] {
        assert_eq!(each.fallback("en-AU-u-hc-h12").unwrap(), ["en-AU", "en-001", "en", "und"]);
        assert_eq!(each.fallback("aa-DJ"), Err(Refusal::Circle));
        assert_eq!(each.name_by_fallback("it", "en-AU").as_deref(), Ok("Italian"));
        assert_eq!(each.name_by_fallback("it", "de"), Err(Refusal::NameMissing));
    }
    assert_eq!(Tables::from_json_with(EXAMPLE.as_bytes(), b"{").err(), Some(Refusal::Json));
    assert_eq!(Tables::from_json_with(EXAMPLE.as_bytes(), b"[]").err(), Some(Refusal::Shape));
    assert_eq!(Tables::from_json_with(b"{", b"{}").err(), Some(Refusal::Json));
}

#[test]
fn syntaxes() {
    let tables = Tables::from_json(EXAMPLE.as_bytes()).unwrap();
    assert_eq!(tables.maximize("EN-u-hc-h12-ca-buddhist").as_deref(), Ok("en-Latn-US-u-ca-buddhist-hc-h12"));
    assert_eq!(tables.canonicalize("sh-t-sh-u-rg-abcdefg").as_deref(), Ok("sr-Latn-t-sr-latn-u-rg-xyz"));
    assert_eq!(tables.maximize("zh-cmn"), Err(Refusal::InvalidSubtag));
    let tables = tables.with_syntax(Syntax::Bcp47);
    assert_eq!(tables.share().unwrap().canonicalize("i-klingon").as_deref(), Ok("tlh"));
    let tables = tables.with_syntax(Syntax::Posix);
    assert_eq!(tables.direction("ar_EG.UTF-8"), Ok(Some(Direction::RightToLeft)));
    assert_eq!(tables.name("it_US@euro", "en").as_deref(), Ok("Italian (United States)"));
}

#[test]
fn long_answers() {
    let tables = Tables::from_json(EXAMPLE.as_bytes()).unwrap();
    let variants: Vec<String> = (0..200).map(|number| format!("piece{number:03}")).collect();
    let variants = variants.join("-");
    assert_eq!(tables.maximize(&format!("de-{variants}")), Ok(format!("de-Latn-DE-{variants}")));
    let variants: Vec<String> = (0..20_000).map(|number| format!("p{number:05}")).collect();
    let variants = variants.join("-");
    for _ in 0..2 {
        assert_eq!(tables.maximize(&format!("de-{variants}")), Ok(format!("de-Latn-DE-{variants}")));
    }
    assert_eq!(tables.is_settled(), Ok(true));
    assert_eq!(tables.canonicalize("sh\tab"), Err(Refusal::InvalidSubtag));
}

#[test]
fn lists() {
    let tables = Tables::from_json(EXAMPLE.as_bytes()).unwrap();
    let negotiator = tables.negotiator(["en-US", "zh_Hant", "yue-CN"]).unwrap();
    for faulty in FAULTY {
        for listed in [vec![faulty], vec!["en", faulty], vec![faulty, "en"]] {
            assert_eq!(tables.negotiator(listed.clone()).err(), Some(Refusal::List));
            assert_eq!(negotiator.negotiate(listed), Err(Refusal::List));
        }
    }
    let none: [&str; 0] = [];
    assert_eq!(negotiator.negotiate(none), Ok(None));
    assert_eq!(tables.negotiator(none).unwrap().negotiate(["en"]), Ok(None));
    assert_eq!(negotiator.available(), ["en-US", "zh_Hant", "yue-CN"]);
    drop(tables);
    let met = negotiator.negotiate(vec!["fr".to_owned(), "yue-Hans".to_owned()]);
    assert_eq!(met, Ok(Some(Match { request: 1, available: 2 })));
}

fn supplemented() -> Tables {
    Tables::from_json_with(EXAMPLE.as_bytes(), EXAMPLE_SUPPLEMENT.as_bytes()).unwrap()
}

const AVAILABLE: [&str; 5] = ["en", "de", "AR_eg", "zh_hant", "sr-Latn"];
// A header, and what is served.
const SERVED: [(&str, Option<&str>); 24] = [
    ("en-GB", Some("en")),
    ("de-AT;q=0.5, en;q=0.4", Some("de")),
    ("ar", Some("AR_eg")),
    ("zh-CN", None),
    ("zh-CN, de;q=0.1", Some("de")),
    ("sh", Some("sr-Latn")),
    ("sr-Cyrl", None),
    ("gsw", Some("de")),
    ("yue", Some("zh_hant")),
    ("yue-Hans", None),
    ("", None),
    ("de-u-co-phonebk, en", Some("de")),
    ("x-mine, i-klingon, de", Some("de")),
    ("zz-zz-zz, *", Some("en")),
    ("*;q=0", None),
    ("EN;q=0, de;q=0, *", Some("AR_eg")),
    ("de;q=0, ja;q=0.2", None),
    ("de;q=x, en", Some("en")),
    ("de;level=1;q=0.1, en;q=0.2", Some("en")),
    (";q=1, de", Some("de")),
    ("sh\tabcdefg", None),
    ("de\0, en", Some("en")),
    ("\u{ff}, de", Some("de")),
    ("fr\r\nde", None),
];

#[test]
fn served() {
    let tables = supplemented();
    let switcher: Switcher = tables.switcher(AVAILABLE).unwrap();
    for (header, wanted) in SERVED {
        assert_eq!(switcher.serve([header]), Ok(wanted), "{header}");
        assert_eq!(tables.serve([header], AVAILABLE), Ok(wanted), "{header}");
    }
    assert_eq!(switcher.serve(["fr, en;q=0.1", "de;q=0.2"]), Ok(Some("de")));
    assert_eq!(switcher.serve([b"\xff".as_slice(), b"de"]), Ok(Some("de")));
    assert_eq!(switcher.serve(None::<&str>), Ok(None));
    let (one, several) = (String::from("fr, de"), vec!["fr", "de"]);
    assert_eq!(switcher.serve("fr, de"), Ok(Some("de")));
    assert_eq!(switcher.serve(&one), switcher.serve(&several));
    assert_eq!(switcher.serve(&several[..]), switcher.serve(Some("de")));
    assert_eq!(switcher.serve(one), switcher.serve(several));
    let none: [&str; 0] = [];
    assert_eq!(tables.serve(["en"], none), Ok(None));
    assert_eq!(tables.serve(["de"], vec!["en".to_owned(), "DE".to_owned()]), Ok(Some("DE".to_owned())));
    assert_eq!(switcher.available(), AVAILABLE);
    drop(tables);
    assert_eq!(switcher.serve(["de"]), Ok(Some("de")));
}

#[test]
fn nearest() {
    let tables = supplemented();
    let switcher = tables.switcher(AVAILABLE).unwrap();
    assert_eq!(switcher.nearest(["fr", "gsw-u-co-phonebk-x-a"]), Ok(Some("de")));
    assert_eq!(tables.nearest(["sh".to_owned()], AVAILABLE), Ok(Some("sr-Latn")));
    let none: [&str; 0] = [];
    assert_eq!(switcher.nearest(none), Ok(None));
    for faulty in FAULTY.into_iter().chain(["i-klingon", "en-u", "x-a", "sh\tabcdefg"]) {
        for requests in [vec![faulty], vec!["en", faulty], vec![faulty, "en"]] {
            assert_eq!(switcher.nearest(requests.clone()), Err(Refusal::List), "{faulty}");
            assert_eq!(tables.nearest(requests, AVAILABLE), Err(Refusal::List), "{faulty}");
        }
    }
    for faulty in FAULTY.into_iter().chain(["x-mine", "sr-u-ka-noignore"]) {
        assert_eq!(tables.switcher(["en", faulty]).err(), Some(Refusal::List));
        assert_eq!(tables.serve(["en"], ["en", faulty]), Err(Refusal::List));
    }
}

// What is near enough, what is available, the requests, and what is served.
type NearEnough<'a> = (MatchOptions, &'a [&'a str], &'a [&'a str], Option<&'a str>);

#[test]
fn near_enough() {
    let tables = supplemented();
    let usual = MatchOptions::default();
    assert_eq!(usual, MatchOptions { threshold: 50, demotion: 5, favor_script: false, or_first: false });
    let below = |threshold| MatchOptions { threshold, ..usual };
    let demoted = |demotion| MatchOptions { demotion, ..usual };
    let favoring = |threshold| MatchOptions { threshold, favor_script: true, ..usual };
    let first = |threshold| MatchOptions { threshold, or_first: true, ..usual };
    let none: [&str; 0] = [];
    let rows: [NearEnough; 19] = [
        (below(8), &["en", "de"], &["gsw"], None),
        (below(9), &["en", "de"], &["gsw"], Some("de")),
        (below(54), &["zh-TW"], &["zh"], None),
        (below(55), &["zh-TW"], &["zh"], Some("zh-TW")),
        (below(0), &["en"], &["en"], None),
        (below(65535), &["ar"], &["en"], Some("ar")),
        (usual, &["en-GB", "de"], &["en-AU", "de"], Some("en-GB")),
        (demoted(0), &["en-GB", "de"], &["en-AU", "de"], Some("de")),
        (demoted(2), &["en-GB", "de"], &["en-AU", "de"], Some("de")),
        (demoted(3), &["en-GB", "de"], &["en-AU", "de"], Some("en-GB")),
        (favoring(50), &["de"], &["en"], Some("de")),
        (favoring(50), &["zh-TW"], &["zh"], None),
        (favoring(5), &["de"], &["gsw"], None),
        (favoring(6), &["de"], &["gsw"], Some("de")),
        (first(50), &["de", "en"], &["fr"], Some("de")),
        (first(50), &["de", "en"], &["en"], Some("en")),
        (first(50), &["de"], &none, Some("de")),
        (first(50), &none, &["de"], None),
        (first(0), &["de", "en"], &["en"], Some("de")),
    ];
    for (options, available, requests, wanted) in rows {
        let switcher = tables.switcher_with(available.iter().copied(), options).unwrap();
        assert_eq!(switcher.nearest(requests), Ok(wanted), "{options:?} {requests:?}");
        assert_eq!(switcher.serve(requests), Ok(wanted), "{options:?} {requests:?}");
    }
    assert_eq!(tables.switcher_with(["de", "en"], first(50)).unwrap().serve("*;q=0"), Ok(Some("de")));
}

#[test]
fn resolved() {
    let tables = supplemented();
    let switcher = tables.switcher(["de", "en-GB", "zh_hant"]).unwrap();
    let found = |available, locale: &str| Ok(Some(Resolved { available, locale: locale.to_owned() }));
    assert_eq!(switcher.resolved(["de-CH"]), found(0, "de-CH"));
    assert_eq!(switcher.resolved(["en-AU-u-ca-buddhist"]), found(1, "en-AU-u-ca-buddhist"));
    assert_eq!(switcher.resolved(["gsw-CH"]), found(0, "de-CH"));
    assert_eq!(switcher.resolved(["zh-TW"]), found(2, "zh-Hant-TW"));
    assert_eq!(switcher.resolved(["fr-x-a", "DE_1996"]), found(0, "de-1996"));
    assert_eq!(switcher.resolved(["fr"]), Ok(None));
    assert_eq!(switcher.resolved(["en", "en-"]), Err(Refusal::List));
    let first = MatchOptions { threshold: 8, or_first: true, ..MatchOptions::default() };
    let switcher = tables.switcher_with(["zh_hant", "de"], first).unwrap();
    assert_eq!(switcher.resolved(["gsw-CH"]), found(0, "zh-Hant"));
    assert_eq!(switcher.resolved(["de-CH"]), found(1, "de-CH"));
}

#[test]
fn distances_and_what_is_the_same() {
    let tables = supplemented();
    for (desired, supported, wanted) in [("en-AU", "en-GB", 3), ("en", "EN_gb", 5), ("en", "de", 84), ("gsw", "de", 8)] {
        assert_eq!(tables.distance(desired, supported), Ok(wanted));
    }
    for (desired, supported) in [("", ""), ("e", "de"), ("en", ""), ("en de", ""), ("i-klingon", "en")] {
        assert_eq!(tables.distance(desired, supported), Err(Refusal::InvalidLanguage));
    }
    assert_eq!(tables.distance("en", "de fr"), Err(Refusal::InvalidSubtag));
    assert_eq!(tables.are_same("sh-u-rg-abcdefg", "sr-Latn-u-rg-xyz"), Ok(true));
    assert_eq!(tables.are_same("en", "en-Latn"), Ok(false));
    assert_eq!(tables.are_same("en", "e"), Err(Refusal::InvalidLanguage));
    let tables = tables.with_syntax(Syntax::Bcp47);
    assert_eq!(tables.distance("i-klingon", "tlh"), Ok(0));
    assert_eq!(tables.are_same("i-klingon", "tlh"), Ok(true));
}

#[test]
fn missing_match_rules() {
    let tables = Tables::from_json(EXAMPLE.as_bytes()).unwrap();
    let none: [&str; 0] = [];
    let refusal = Refusal::Table { member: "matching" };
    assert_eq!(tables.serve(none, none), Err(refusal));
    assert_eq!(tables.switcher(["en"]).unwrap().nearest(["en"]), Err(refusal));
    assert_eq!(tables.switcher(["en"]).unwrap().resolved(["en"]), Err(refusal));
    assert_eq!(tables.distance("en", "de"), Err(refusal));
    assert_eq!(refusal.to_string(), "the tables leave out `matching`, which is needed: a supplement has it");
}

// The first member that is needed and left out is told.
#[test]
fn missing_members() {
    let [language, others] = ["\"likely_language\":{\"und\":[\"en\",\"Latn\",\"US\"]}", "\"likely_script_region\":{}"];
    let aliases = "\"aliases\":{\"language_len2\":{\"iw\":\"he\"}}";
    for (texts, command, member) in [
        ([others, aliases], "maximize", "likely_language"),
        ([others, aliases], "locales canonicalize", "likely_language"),
        ([language, aliases], "maximize", "likely_script_region"),
        ([language, aliases], "bcp47 distance", "likely_script_region"),
        ([language, aliases], "direction", "likely_script_region"),
        ([language, others], "canonicalize", "aliases"),
        ([language, others], "posix key", "aliases"),
        ([language, others], "direction", "direction"),
        ([language, others], "exemplars main en", "exemplars"),
        ([language, others], "validate", "validity"),
    ] {
        let json = format!("{{{}}}", texts.join(","));
        let tables = Tables::from_json_with(json.as_bytes(), EXAMPLE_SUPPLEMENT.as_bytes()).unwrap();
        let refusal = Refusal::Table { member };
        assert_eq!(tables.answer(command, b"en").err(), Some(refusal), "{json} {command}");
        assert!(refusal.to_string().contains(&format!("`{member}`")), "{refusal}");
        if member.starts_with("likely") {
            assert_eq!(tables.is_settled(), Err(refusal));
            assert_eq!(tables.negotiator(["en"]).err(), Some(refusal));
        }
        if member == "aliases" {
            assert_eq!(tables.serve("en", ["en"]), Err(refusal));
        }
    }
}

#[test]
fn aliases_of_values() {
    let tables = supplemented();
    for (identifier, wanted) in [
        ("en-u-ca-islamicc", "en-u-ca-islamic-civil"),
        ("en-u-kb-yes", "en-u-kb"),
        ("en-t-m0-names", "en-t-m0-prprname"),
    ] {
        assert_eq!(tables.canonicalize(identifier).as_deref(), Ok(wanted));
        assert_eq!(tables.are_same(identifier, wanted), Ok(true));
    }
    let circle = r#"{"aaa":"bbb","bbb":"aaa"}"#;
    let circles = format!(r#"{{"keywords":{{"ca":{circle}}},"fields":{{"m0":{circle}}}}}"#);
    let tables = Tables::from_json_with(EXAMPLE.as_bytes(), circles.as_bytes()).unwrap();
    assert_eq!(tables.canonicalize("en-u-ca-aaa"), Err(Refusal::NoValueFixedPoint));
    assert_eq!(tables.canonicalize("en-t-m0-aaa"), Err(Refusal::NoFieldFixedPoint));
}

#[test]
fn refused_tables() {
    let empty = Tables::from_json(b"{}").unwrap();
    assert_eq!(empty.negotiator(["en-"]).err(), Some(Refusal::Table { member: "likely_language" }));
    let unsettled = Tables::from_json(UNSETTLED.as_bytes()).unwrap();
    assert_eq!(unsettled.negotiator(["en-"]).err(), Some(Refusal::List));
    let negotiator = unsettled.negotiator(["en"]).unwrap();
    assert_eq!(negotiator.negotiate(["en"]), Err(Refusal::Unsettled));
    assert_eq!(negotiator.negotiate(["en-"]), Err(Refusal::Unsettled));
}

#[test]
fn long_lists() {
    let tables = Tables::from_json(EXAMPLE.as_bytes()).unwrap();
    let available: Vec<String> = (1000..3000).map(|number| format!("en-{number}")).collect();
    let negotiator = tables.negotiator(available.clone()).unwrap();
    for place in (0..2000).step_by(97) {
        let met = negotiator.negotiate(["fr", &available[place]]);
        assert_eq!(met, Ok(Some(Match { request: 1, available: place })));
    }
}

fn always_meets(negotiator: Negotiator) -> bool {
    (0..2000).all(|_| {
        negotiator.negotiate(["fr", "zh-TW"]) == Ok(Some(Match { request: 1, available: 2 }))
            && negotiator.negotiate(["fr"]) == Ok(None)
    })
}

#[test]
fn threads_that_negotiate() {
    let tables = Tables::from_json(EXAMPLE.as_bytes()).unwrap();
    let threads: Vec<_> = (0..8)
        .map(|_| {
            let negotiator = tables.negotiator(["en", "de", "zh-Hant"]).unwrap();
            std::thread::spawn(move || always_meets(negotiator))
        })
        .collect();
    drop(tables);
    assert!(threads.into_iter().all(|thread| thread.join().unwrap()));
}

#[test]
fn threads() {
    let first = Tables::from_json(EXAMPLE.as_bytes()).unwrap();
    let threads: Vec<_> = (0..8)
        .map(|_| {
            let tables = first.share().unwrap();
            std::thread::spawn(move || {
                (0..2000).all(|_| {
                    tables.maximize("zh").as_deref() == Ok("zh-Hans-CN")
                        && tables.canonicalize("sh").as_deref() == Ok("sr-Latn")
                })
            })
        })
        .collect();
    drop(first);
    assert!(threads.into_iter().all(|thread| thread.join().unwrap()));
}

fn is_one_thread_or_many<T: Send + Sync>(_: &T) {}

#[test]
fn one_object_in_sixteen_threads() {
    let tables = supplemented();
    let negotiator = tables.negotiator(["en", "de", "zh-Hant"]).unwrap();
    let switcher = tables.switcher(["en", "de", "zh-Hant"]).unwrap();
    is_one_thread_or_many(&tables);
    is_one_thread_or_many(&negotiator);
    is_one_thread_or_many(&switcher);
    std::thread::scope(|scope| {
        for _ in 0..16 {
            scope.spawn(|| {
                for _ in 0..2000 {
                    assert_eq!(tables.maximize("zh").as_deref(), Ok("zh-Hans-CN"));
                    assert_eq!(tables.canonicalize("sh").as_deref(), Ok("sr-Latn"));
                    assert_eq!(negotiator.negotiate(["fr", "zh-TW"]), Ok(Some(Match { request: 1, available: 2 })));
                    assert_eq!(switcher.serve(["fr, yue;q=0.1"]), Ok(Some("zh-Hant")));
                }
                assert_eq!(tables.is_settled(), Ok(true));
            });
        }
    });
}

#[test]
fn more_threads_than_places() {
    let tables = std::sync::Arc::new(Tables::from_json(EXAMPLE.as_bytes()).unwrap());
    let threads: Vec<_> = (0..100)
        .map(|_| {
            let tables = std::sync::Arc::clone(&tables);
            std::thread::spawn(move || (0..200).all(|_| tables.maximize("zh").as_deref() == Ok("zh-Hans-CN")))
        })
        .collect();
    drop(tables);
    assert!(threads.into_iter().all(|thread| thread.join().unwrap()));
}

// Answers a second of some threads over one object.
fn rate(tables: &Tables, count: usize) -> f64 {
    let begun = std::time::Instant::now();
    std::thread::scope(|scope| {
        for _ in 0..count {
            scope.spawn(|| (0..64_000 / count).for_each(|_| assert!(tables.maximize("zh-TW").is_ok())));
        }
    });
    64_000.0 / begun.elapsed().as_secs_f64()
}

// In one of twenty rounds at the least, since other work of the machine comes between them.
#[test]
fn sixteen_threads_answer_no_less_than_one() {
    let tables = Tables::from_json(EXAMPLE.as_bytes()).unwrap();
    assert!((0..20).any(|_| rate(&tables, 16) >= 0.9 * rate(&tables, 1)));
}

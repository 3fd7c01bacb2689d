//! A program that stands on the crate alone: a first run.
use icu_locale_calls::{Refusal, Tables, EXAMPLE, EXAMPLE_SUPPLEMENT};

fn main() -> Result<(), Refusal> {
    let tables = Tables::from_json_with(EXAMPLE.as_bytes(), EXAMPLE_SUPPLEMENT.as_bytes())?;
    assert_eq!(tables.maximize("zh-TW")?, "zh-Hant-TW");
    assert_eq!(tables.serve(["gsw"], ["en", "de"])?, Some("de"));
    Ok(())
}

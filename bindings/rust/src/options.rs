//! What is near enough to be served.
use std::fmt::Write;

/// What is near enough to be served. The default is that of ICU.
///
/// ```
/// use icu_locale_calls::{MatchOptions, Tables, EXAMPLE, EXAMPLE_SUPPLEMENT};
/// let tables = Tables::from_json_with(EXAMPLE.as_bytes(), EXAMPLE_SUPPLEMENT.as_bytes())?;
/// assert_eq!(tables.distance("gsw", "de")?, 8);
/// let near = MatchOptions { threshold: 8, ..MatchOptions::default() };
/// assert_eq!(tables.switcher_with(["en", "de"], near)?.serve("gsw")?, None);
/// let near = MatchOptions { or_first: true, ..near };
/// assert_eq!(tables.switcher_with(["en", "de"], near)?.serve("gsw, en;q=0")?, Some("en"));
/// # Ok::<(), icu_locale_calls::Refusal>(())
/// ```
#[derive(Clone, Copy, Debug, PartialEq, Eq, Hash)]
pub struct MatchOptions {
    /// The distance that is too far: 50 by default.
    pub threshold: u16,
    /// What each request after the first counts more: 5 by default. By 0 the nearest of all is served.
    pub demotion: u16,
    /// A difference of languages counts a quarter, so that one of scripts weighs more.
    pub favor_script: bool,
    /// The first of what is available is served where nothing else is, even if the header refuses it.
    pub or_first: bool,
}

impl Default for MatchOptions {
    fn default() -> Self {
        MatchOptions { threshold: 50, demotion: 5, favor_script: false, or_first: false }
    }
}

impl MatchOptions {
    /// The words of what is not by default, each with a space after it, before a command that serves a reader.
    pub(crate) fn words(self) -> String {
        let usual = MatchOptions::default();
        let mut words = String::new();
        for (name, number, other) in
            [("threshold", self.threshold, usual.threshold), ("demotion", self.demotion, usual.demotion)]
        {
            if number != other {
                write!(words, "{name} {number} ").expect("a String is written to");
            }
        }
        for (name, is_so) in [("favor-script ", self.favor_script), ("or-first ", self.or_first)] {
            words.push_str(if is_so { name } else { "" });
        }
        words
    }
}

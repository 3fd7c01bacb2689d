//! What is asked of CLDR's tables without names.
use super::kept::tables;
use super::{LanguageIdentifier, Locale, TransformResult};
use crate::Direction;
use std::fmt::Display;
use std::str::FromStr;

// Puts the answer in the place of what was asked, if it is another one.
fn transform<T: Display + FromStr>(command: &str, value: &mut T) -> TransformResult {
    let told = tables().answer(&format!("locales {command}"), value.to_string().as_bytes());
    let told = told.unwrap_or_else(|refusal| panic!("{value}: {refusal}"));
    match told.rsplit_once('\t') {
        Some((form, "M")) => {
            *value = form.parse().unwrap_or_else(|_| panic!("{form} is an answer, and is read"));
            TransformResult::Modified
        }
        _ => TransformResult::Unmodified,
    }
}

/// Likely subtags.
///
/// ```
/// use icu_locale_calls::icu_locale::{langid, LocaleExpander, TransformResult};
/// # if icu_locale_calls::Tables::cldr(&[]).is_err() { return }
/// let expander = LocaleExpander::new_extended();
/// let mut found = langid!("uz-AF");
/// assert_eq!(expander.maximize(&mut found), TransformResult::Modified);
/// assert_eq!(found, langid!("uz-Arab-AF"));
/// assert_eq!(expander.minimize_favor_script(&mut found), TransformResult::Modified);
/// assert_eq!(found, langid!("uz-Arab"));
/// ```
#[derive(Clone, Debug)]
pub struct LocaleExpander(());

impl LocaleExpander {
    /// That of all locales.
    #[must_use]
    pub const fn new_common() -> Self {
        LocaleExpander(())
    }

    /// That of all locales.
    #[must_use]
    pub const fn new_extended() -> Self {
        LocaleExpander(())
    }

    /// Puts the maximal form in the place of an identifier.
    pub fn maximize(&self, langid: &mut LanguageIdentifier) -> TransformResult {
        transform("maximize", langid)
    }

    /// Puts the minimal form there, the region kept before the script.
    pub fn minimize(&self, langid: &mut LanguageIdentifier) -> TransformResult {
        transform("minimize", langid)
    }

    /// Puts the minimal form there, the script kept before the region.
    pub fn minimize_favor_script(&self, langid: &mut LanguageIdentifier) -> TransformResult {
        transform("minimize-script", langid)
    }
}

impl AsRef<LocaleExpander> for LocaleExpander {
    fn as_ref(&self) -> &LocaleExpander {
        self
    }
}

/// Canonical forms.
///
/// ```
/// use icu_locale_calls::icu_locale::{locale, LocaleCanonicalizer, TransformResult};
/// # if icu_locale_calls::Tables::cldr(&[]).is_err() { return }
/// let mut found = locale!("sh-u-rg-ustx");
/// assert_eq!(LocaleCanonicalizer::new_extended().canonicalize(&mut found), TransformResult::Modified);
/// assert_eq!(found, locale!("sr-Latn-u-rg-ustx"));
/// ```
#[derive(Debug)]
pub struct LocaleCanonicalizer<Expander = LocaleExpander> {
    _expander: Expander,
}

impl LocaleCanonicalizer<LocaleExpander> {
    /// That of all locales.
    #[must_use]
    pub const fn new_common() -> Self {
        Self::new_with_expander(LocaleExpander::new_common())
    }

    /// That of all locales.
    #[must_use]
    pub const fn new_extended() -> Self {
        Self::new_with_expander(LocaleExpander::new_extended())
    }
}

impl<Expander: AsRef<LocaleExpander>> LocaleCanonicalizer<Expander> {
    /// One with an expander.
    #[must_use]
    pub const fn new_with_expander(expander: Expander) -> Self {
        LocaleCanonicalizer { _expander: expander }
    }

    /// Puts the canonical form in the place of a locale.
    pub fn canonicalize(&self, locale: &mut Locale) -> TransformResult {
        transform("canonicalize", locale)
    }
}

/// Which way locales are written.
///
/// ```
/// use icu_locale_calls::icu_locale::{langid, Direction, LocaleDirectionality};
/// # if icu_locale_calls::Tables::cldr(&[]).is_err() { return }
/// let directionality = LocaleDirectionality::new_common();
/// assert_eq!(directionality.get(&langid!("ur")), Some(Direction::RightToLeft));
/// assert!(directionality.is_left_to_right(&langid!("ur-Latn")));
/// ```
#[derive(Debug)]
pub struct LocaleDirectionality<Expander = LocaleExpander> {
    _expander: Expander,
}

impl LocaleDirectionality<LocaleExpander> {
    /// That of all locales.
    #[must_use]
    pub const fn new_common() -> Self {
        Self::new_with_expander(LocaleExpander::new_common())
    }

    /// That of all locales.
    #[must_use]
    pub const fn new_extended() -> Self {
        Self::new_with_expander(LocaleExpander::new_extended())
    }
}

impl<Expander: AsRef<LocaleExpander>> LocaleDirectionality<Expander> {
    /// One with an expander.
    #[must_use]
    pub const fn new_with_expander(expander: Expander) -> Self {
        LocaleDirectionality { _expander: expander }
    }

    /// Which way the likely script runs, where that is known.
    #[must_use]
    pub fn get(&self, langid: &LanguageIdentifier) -> Option<Direction> {
        let text = langid.to_string();
        tables().direction(&text).unwrap_or_else(|refusal| panic!("{text}: {refusal}"))
    }

    /// Whether it is known to run from right to left.
    #[must_use]
    pub fn is_right_to_left(&self, langid: &LanguageIdentifier) -> bool {
        self.get(langid) == Some(Direction::RightToLeft)
    }

    /// Whether it is known to run from left to right.
    #[must_use]
    pub fn is_left_to_right(&self, langid: &LanguageIdentifier) -> bool {
        self.get(langid) == Some(Direction::LeftToRight)
    }
}

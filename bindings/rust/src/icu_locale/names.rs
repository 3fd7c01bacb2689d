//! Names of identifiers, scripts, regions and variants. The first name in a locale opens its tables, which are kept.
use super::kept::{named, tables, Names};
use super::subtags::{Language, Region, Script, Variant};
use super::{LanguageIdentifier, Locale};
use crate::{data, Chain, Name, Refusal, RegionChain, ScriptChain, Tables};
use std::fmt;

/// Why there is no name.
pub type DataError = Refusal;

/// The locale in whose language names are: a language, a script and a region.
///
/// ```
/// use icu_locale_calls::icu_locale::{locale, names::DisplayNamesPreferences};
/// assert_eq!(DisplayNamesPreferences::from(locale!("de")), locale!("DE").into());
/// ```
#[derive(Clone, Copy, Debug, PartialEq, Eq, Hash)]
pub struct DisplayNamesPreferences(Language, Option<Script>, Option<Region>);

impl DisplayNamesPreferences {
    // The first locale of the chain that CLDR has.
    pub(super) fn locale(&self) -> Result<&'static str, DataError> {
        let DisplayNamesPreferences(language, script, region) = *self;
        let chain = tables().fallback(&LanguageIdentifier::from((language, script, region)).to_string())?;
        chain.iter().find_map(|it| data::known(it)).ok_or(Refusal::NameMissing)
    }
}

impl From<Locale> for DisplayNamesPreferences {
    fn from(locale: Locale) -> Self {
        Self::from(locale.id)
    }
}

impl From<&Locale> for DisplayNamesPreferences {
    fn from(locale: &Locale) -> Self {
        Self::from(&locale.id)
    }
}

impl From<LanguageIdentifier> for DisplayNamesPreferences {
    fn from(langid: LanguageIdentifier) -> Self {
        Self::from(&langid)
    }
}

impl From<&LanguageIdentifier> for DisplayNamesPreferences {
    fn from(langid: &LanguageIdentifier) -> Self {
        DisplayNamesPreferences(langid.language, langid.script, langid.region)
    }
}

/// How names of identifiers are made.
#[derive(Clone, Copy, Debug, Default, PartialEq, Eq, Hash)]
#[non_exhaustive]
pub struct LanguageIdentifierDisplayNameOptions {
    /// Which names there are of languages; `Dialect` where none is told.
    pub language_display: Option<LanguageDisplay>,
}

/// Which names there are of languages.
#[derive(Clone, Copy, Debug, Default, PartialEq, Eq, Hash)]
#[non_exhaustive]
pub enum LanguageDisplay {
    /// Those of dialects too, as `Austrian German`.
    #[default]
    Dialect,
    /// Those of languages alone, as `German (Austria)`.
    Standard,
}

/// The name of an identifier.
///
/// ```
/// use icu_locale_calls::icu_locale::names::LanguageIdentifierDisplayName;
/// use icu_locale_calls::icu_locale::{langid, locale};
/// # if icu_locale_calls::Tables::cldr(&[]).is_err() { return Ok(()) }
/// let name = LanguageIdentifierDisplayName::try_new_short_light(locale!("nl").into(), langid!("en-GB"), Default::default())?;
/// assert_eq!(name.to_string(), "Engels (VK)");
/// assert_eq!(name.is_whole(), Ok(()));
/// # Ok::<(), icu_locale_calls::Refusal>(())
/// ```
#[derive(Clone, Debug, PartialEq, Eq, Hash)]
pub struct LanguageIdentifierDisplayName(Name);

/// The same, borrowed.
#[derive(Clone, Copy, Debug, PartialEq, Eq, Hash)]
pub struct LanguageIdentifierDisplayNameBorrowed<'a>(&'a Name);

/// What is told of a name of which a part is a subtag.
#[derive(Clone, Copy, Debug, Default, PartialEq, Eq, Hash)]
pub struct LanguageIdentifierNameFallbackError;

impl fmt::Display for LanguageIdentifierNameFallbackError {
    fn fmt(&self, to: &mut fmt::Formatter<'_>) -> fmt::Result {
        to.write_str("a part of the name is a subtag")
    }
}

impl std::error::Error for LanguageIdentifierNameFallbackError {}

impl LanguageIdentifierDisplayName {
    fn of(
        prefs: DisplayNamesPreferences,
        subject: LanguageIdentifier,
        options: LanguageIdentifierDisplayNameOptions,
        chain: Chain,
    ) -> Result<Self, DataError> {
        let locale = prefs.locale()?;
        let names = match options.language_display.unwrap_or_default() {
            LanguageDisplay::Dialect => Names::Whole,
            LanguageDisplay::Standard => Names::Standard,
        };
        named(locale, names)?.name_in(&subject.to_string(), locale, chain).map(LanguageIdentifierDisplayName)
    }

    /// The same, borrowed.
    #[must_use]
    pub fn as_borrowed(&self) -> LanguageIdentifierDisplayNameBorrowed<'_> {
        LanguageIdentifierDisplayNameBorrowed(&self.0)
    }

    /// Whether each part of it has a name.
    ///
    /// # Errors
    ///
    /// Where one has none, and is a subtag.
    pub fn is_whole(&self) -> Result<(), LanguageIdentifierNameFallbackError> {
        self.as_borrowed().is_whole()
    }
}

impl LanguageIdentifierDisplayNameBorrowed<'_> {
    /// Whether each part of it has a name.
    ///
    /// # Errors
    ///
    /// Where one has none, and is a subtag.
    pub fn is_whole(&self) -> Result<(), LanguageIdentifierNameFallbackError> {
        if self.0.is_raw { Err(LanguageIdentifierNameFallbackError) } else { Ok(()) }
    }
}

macro_rules! chains {
    ($($call:ident $chain:ident)*) => {
        impl LanguageIdentifierDisplayName {$(
            #[doc = concat!("A name by the chain `", stringify!($chain), "`.")]
            ///
            /// # Errors
            ///
            /// `NameMissing` where CLDR has no names in that language, `Memory`.
            pub fn $call(
                prefs: DisplayNamesPreferences,
                subject: LanguageIdentifier,
                options: LanguageIdentifierDisplayNameOptions,
            ) -> Result<Self, DataError> {
                Self::of(prefs, subject, options, Chain::$chain)
            }
        )*}
    };
}

chains! {
    try_new_tiny Tiny
    try_new_light Light
    try_new_short_light ShortLight
    try_new_long_light LongLight
    try_new_menu_light MenuLight
    try_new_short_menu_light ShortMenuLight
    try_new_heavy Heavy
    try_new_short_heavy ShortHeavy
    try_new_long_heavy LongHeavy
    try_new_menu_heavy MenuHeavy
    try_new_short_menu_heavy ShortMenuHeavy
}

impl fmt::Display for LanguageIdentifierDisplayName {
    fn fmt(&self, to: &mut fmt::Formatter<'_>) -> fmt::Result {
        to.pad(&self.0.text)
    }
}

impl fmt::Display for LanguageIdentifierDisplayNameBorrowed<'_> {
    fn fmt(&self, to: &mut fmt::Formatter<'_>) -> fmt::Result {
        to.pad(&self.0.text)
    }
}

// The name of a subtag alone, which is asked of tables without other names, in a locale.
fn of_part(
    prefs: DisplayNamesPreferences,
    ask: impl FnOnce(&Tables, &str) -> Result<Name, Refusal>,
) -> Result<String, DataError> {
    let locale = prefs.locale()?;
    match ask(named(locale, Names::Parts)?, locale)? {
        Name { is_raw: true, .. } => Err(Refusal::NameMissing),
        Name { text, .. } => Ok(text),
    }
}

macro_rules! of_parts {
    ($($name:ident $borrowed:ident $part:ident $call:ident:
        $($try_new:ident $with_fallback:ident $word:literal $($chain:path)?),*;)*) => {$(
        #[doc = concat!("The name of a `", stringify!($part), "`.")]
        #[derive(Clone, Debug, PartialEq, Eq, Hash)]
        pub struct $name(String);

        /// The same, borrowed.
        #[derive(Clone, Copy, Debug, PartialEq, Eq, Hash)]
        pub struct $borrowed<'a>(&'a str);

        impl $name {
            $(
                #[doc = concat!("A name by the chain `", $word, "`.")]
                ///
                /// # Errors
                ///
                /// `NameMissing` where CLDR has none, or none in that language; `Memory`.
                pub fn $try_new(prefs: DisplayNamesPreferences, subtag: $part) -> Result<Self, DataError> {
                    of_part(prefs, |tables, locale| tables.$call(subtag.as_str(), locale $(, $chain)?)).map($name)
                }

                /// The same, or the subtag where there is none.
                #[must_use]
                pub fn $with_fallback(prefs: DisplayNamesPreferences, subtag: $part) -> Self {
                    Self::$try_new(prefs, subtag).unwrap_or_else(|_| $name(subtag.to_string()))
                }
            )*

            /// The same, borrowed.
            #[must_use]
            pub fn as_borrowed(&self) -> $borrowed<'_> {
                $borrowed(&self.0)
            }
        }

        impl fmt::Display for $name {
            fn fmt(&self, to: &mut fmt::Formatter<'_>) -> fmt::Result {
                to.pad(&self.0)
            }
        }

        impl fmt::Display for $borrowed<'_> {
            fn fmt(&self, to: &mut fmt::Formatter<'_>) -> fmt::Result {
                to.pad(self.0)
            }
        }
    )*};
}

of_parts! {
    RegionDisplayName RegionDisplayNameBorrowed Region region_name:
        try_new_tiny new_tiny_with_fallback "tiny" RegionChain::Tiny,
        try_new_light new_light_with_fallback "light" RegionChain::Light,
        try_new_short_light new_short_light_with_fallback "short-light" RegionChain::ShortLight,
        try_new_short_tiny new_short_tiny_with_fallback "short-tiny" RegionChain::ShortTiny;
    ScriptDisplayName ScriptDisplayNameBorrowed Script script_name:
        try_new_tiny new_tiny_with_fallback "tiny" ScriptChain::Tiny,
        try_new_light new_light_with_fallback "light" ScriptChain::Light,
        try_new_heavy new_heavy_with_fallback "heavy" ScriptChain::Heavy,
        try_new_short_heavy new_short_heavy_with_fallback "short-heavy" ScriptChain::ShortHeavy;
    VariantDisplayName VariantDisplayNameBorrowed Variant variant_name:
        try_new_heavy new_heavy_with_fallback "heavy";
}

//! Identifiers with public parts.
use super::subtags::{Language, Region, Script, Variant, Variants};
use super::{parts, Extensions, ParseError};
use std::fmt;
use std::str::FromStr;

/// A language with its script, its region and its variants.
///
/// ```
/// use icu_locale_calls::icu_locale::{langid, subtags::region, LanguageIdentifier};
/// let mut found: LanguageIdentifier = "SR_cyrl".parse()?;
/// assert_eq!((found.language.as_str(), found.region), ("sr", None));
/// found.region = Some(region!("me"));
/// assert_eq!(found, langid!("sr-Cyrl-ME"));
/// # Ok::<(), icu_locale_calls::icu_locale::ParseError>(())
/// ```
#[derive(Clone, Debug, Default, PartialEq, Eq, PartialOrd, Ord, Hash)]
pub struct LanguageIdentifier {
    /// Its language.
    pub language: Language,
    /// Its script.
    pub script: Option<Script>,
    /// Its region.
    pub region: Option<Region>,
    /// Its variants.
    pub variants: Variants,
}

/// An identifier with extensions.
///
/// ```
/// use icu_locale_calls::icu_locale::{locale, Locale};
/// let mut found: Locale = "sr-Latn-u-nu-latn".parse()?;
/// found.id.script = None;
/// found.extensions.unicode.keywords.insert("ca".into(), "gregory".into());
/// assert_eq!(found.to_string(), "sr-u-ca-gregory-nu-latn");
/// assert_eq!(found, locale!("SR-u-nu-latn-ca-gregory"));
/// # Ok::<(), icu_locale_calls::icu_locale::ParseError>(())
/// ```
#[derive(Clone, Debug, Default, PartialEq, Eq, PartialOrd, Ord, Hash)]
pub struct Locale {
    /// The identifier.
    pub id: LanguageIdentifier,
    /// The extensions.
    pub extensions: Extensions,
}

impl LanguageIdentifier {
    /// `und`.
    pub const UNKNOWN: Self =
        LanguageIdentifier { language: Language::UNKNOWN, script: None, region: None, variants: Variants::new() };

    /// Reads a text without extensions, in any case, with `-` or `_`.
    ///
    /// # Errors
    ///
    /// Where it is none.
    pub fn try_from_str(text: &str) -> Result<Self, ParseError> {
        let Locale { id, extensions } = Locale::try_from_str(text)?;
        if extensions.is_empty() { Ok(id) } else { Err(ParseError::InvalidSubtag) }
    }

    /// The same of bytes.
    ///
    /// # Errors
    ///
    /// Those of `try_from_str`.
    pub fn try_from_utf8(text: &[u8]) -> Result<Self, ParseError> {
        std::str::from_utf8(text).map_err(|_| ParseError::InvalidLanguage).and_then(Self::try_from_str)
    }

    /// A text as it is written.
    ///
    /// # Errors
    ///
    /// Those of `try_from_str`.
    pub fn normalize(text: &str) -> Result<String, ParseError> {
        Self::try_from_str(text).map(|it| it.to_string())
    }

    /// Whether no language is known, and nothing else is there.
    #[must_use]
    pub fn is_unknown(&self) -> bool {
        *self == Self::UNKNOWN
    }
}

impl Locale {
    /// `und`.
    pub const UNKNOWN: Self = Locale { id: LanguageIdentifier::UNKNOWN, extensions: Extensions::new() };

    /// Reads a text, in any case, with `-` or `_`.
    ///
    /// # Errors
    ///
    /// Where it is none.
    pub fn try_from_str(text: &str) -> Result<Self, ParseError> {
        let told = parts(text)?;
        let id = LanguageIdentifier {
            language: Language::told(told.language()),
            script: told.script().map(Script::told),
            region: told.region().map(Region::told),
            variants: Variants::from_vec_unchecked(told.variants().iter().map(|it| Variant::told(it)).collect()),
        };
        Ok(Locale { id, extensions: Extensions::told(&told) })
    }

    /// The same of bytes.
    ///
    /// # Errors
    ///
    /// Those of `try_from_str`.
    pub fn try_from_utf8(text: &[u8]) -> Result<Self, ParseError> {
        std::str::from_utf8(text).map_err(|_| ParseError::InvalidLanguage).and_then(Self::try_from_str)
    }

    /// A text as it is written.
    ///
    /// # Errors
    ///
    /// Those of `try_from_str`.
    pub fn normalize(text: &str) -> Result<String, ParseError> {
        Self::try_from_str(text).map(|it| it.to_string())
    }

    /// Whether no language is known, and nothing else is there.
    #[must_use]
    pub fn is_unknown(&self) -> bool {
        *self == Self::UNKNOWN
    }
}

impl fmt::Display for LanguageIdentifier {
    fn fmt(&self, to: &mut fmt::Formatter<'_>) -> fmt::Result {
        to.write_str(self.language.as_str())?;
        let (script, region) = (self.script.as_ref().map(Script::as_str), self.region.as_ref().map(Region::as_str));
        let mut rest = script.into_iter().chain(region).chain(self.variants.iter().map(Variant::as_str));
        rest.try_for_each(|it| write!(to, "-{it}"))
    }
}

impl fmt::Display for Locale {
    fn fmt(&self, to: &mut fmt::Formatter<'_>) -> fmt::Result {
        write!(to, "{}{}", self.id, self.extensions)
    }
}

impl FromStr for LanguageIdentifier {
    type Err = ParseError;

    fn from_str(text: &str) -> Result<Self, ParseError> {
        Self::try_from_str(text)
    }
}

impl FromStr for Locale {
    type Err = ParseError;

    fn from_str(text: &str) -> Result<Self, ParseError> {
        Self::try_from_str(text)
    }
}

impl From<Language> for LanguageIdentifier {
    fn from(language: Language) -> Self {
        LanguageIdentifier { language, ..Self::UNKNOWN }
    }
}

impl From<Option<Script>> for LanguageIdentifier {
    fn from(script: Option<Script>) -> Self {
        LanguageIdentifier { script, ..Self::UNKNOWN }
    }
}

impl From<Option<Region>> for LanguageIdentifier {
    fn from(region: Option<Region>) -> Self {
        LanguageIdentifier { region, ..Self::UNKNOWN }
    }
}

impl From<(Language, Option<Script>, Option<Region>)> for LanguageIdentifier {
    fn from((language, script, region): (Language, Option<Script>, Option<Region>)) -> Self {
        LanguageIdentifier { language, script, region, ..Self::UNKNOWN }
    }
}

macro_rules! of_part {
    ($($part:ty),*) => {$(
        impl From<$part> for Locale {
            fn from(part: $part) -> Self {
                Locale { id: part.into(), extensions: Extensions::new() }
            }
        }
    )*};
}

of_part!(LanguageIdentifier, Language, Option<Script>, Option<Region>, (Language, Option<Script>, Option<Region>));

impl From<Locale> for LanguageIdentifier {
    fn from(locale: Locale) -> Self {
        locale.id
    }
}

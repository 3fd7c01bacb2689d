//! The names and signatures of the crate `icu_locale` 2.3.1, over the proved library and CLDR's data inside: a program
//! changes its `use`.
//!
//! ```
//! use icu_locale_calls::icu_locale::{locale, LocaleExpander, TransformResult};
//! # if icu_locale_calls::Tables::cldr(&[]).is_err() { return }
//! let mut found = locale!("und-TW-u-ca-roc");
//! assert_eq!(LocaleExpander::new_extended().maximize(&mut found.id), TransformResult::Modified);
//! assert_eq!(found, locale!("zh-Hant-TW-u-ca-roc"));
//! ```
//!
//! What differs: `new_common`, `tiny` and `light` have all of CLDR's data, whose version `cldr_version` tells; `locale!` and
//! its like read their text when the program runs, and panic where it is none; keys and values of extensions are texts that
//! were read; there are no constructors over a provider; a set of exemplar characters is asked by `contains`, `contains32`
//! and `contains_str` alone; a name is a text. Any call but those that only read a text panics where the crate was made
//! without data.
pub mod exemplar_chars;
mod extensions;
mod forms;
mod identifiers;
mod kept;
mod macros;
pub mod names;
pub mod subtags;

pub use crate::Direction;
pub use extensions::{Extensions, Transform, Unicode};
pub use forms::{LocaleCanonicalizer, LocaleDirectionality, LocaleExpander};
pub use identifiers::{LanguageIdentifier, Locale};

#[doc(inline)]
pub use crate::{__langid as langid, __locale as locale};

use crate::{Refusal, Syntax};
use std::fmt;

/// The locale whose data is asked for, which is a language, a script and a region.
pub type DataLocale = names::DisplayNamesPreferences;

/// Whether a call has changed what it was given.
#[derive(Clone, Copy, Debug, PartialEq, Eq, Hash)]
pub enum TransformResult {
    /// It was changed.
    Modified,
    /// It is as it was.
    Unmodified,
}

/// Why a text is none of what is read.
#[derive(Clone, Copy, Debug, PartialEq, Eq, Hash)]
#[non_exhaustive]
pub enum ParseError {
    /// It does not begin with a language.
    InvalidLanguage,
    /// A subtag is none, or is where it may not be.
    InvalidSubtag,
}

impl fmt::Display for ParseError {
    fn fmt(&self, to: &mut fmt::Formatter<'_>) -> fmt::Result {
        to.write_str(match self {
            ParseError::InvalidLanguage => "the text does not begin with a language",
            ParseError::InvalidSubtag => "a subtag is none, or stands where it may not",
        })
    }
}

impl std::error::Error for ParseError {}

// The parts of a text. Memory that is refused ends the program, as it does elsewhere in Rust.
fn parts(text: &str) -> Result<crate::Locale, ParseError> {
    match crate::Locale::read(text, Syntax::Locales) {
        Ok(parts) => Ok(parts),
        Err(Refusal::InvalidLanguage) => Err(ParseError::InvalidLanguage),
        Err(Refusal::InvalidSubtag) => Err(ParseError::InvalidSubtag),
        Err(refusal) => panic!("{refusal}"),
    }
}

//! Language, script, region and variant. What is one, the library says.
use super::{parts, ParseError};
use std::fmt;
use std::ops::Deref;
use std::str::FromStr;

#[doc(inline)]
pub use crate::{__language as language, __region as region, __script as script, __variant as variant};

// ASCII, behind which there is 0. So pieces are in the order of their texts.
#[derive(Clone, Copy, PartialEq, Eq, PartialOrd, Ord, Hash)]
struct Piece<const N: usize>([u8; N]);

impl<const N: usize> Piece<N> {
    fn of(text: &str) -> Self {
        let mut bytes = [0; N];
        bytes[..text.len()].copy_from_slice(text.as_bytes());
        Piece(bytes)
    }

    fn as_str(&self) -> &str {
        let length = self.0.iter().position(|byte| *byte == 0).unwrap_or(N);
        std::str::from_utf8(&self.0[..length]).expect("a piece is ASCII")
    }
}

macro_rules! subtag {
    ($(#[$about:meta])* $name:ident, $length:literal, $read:expr, $fault:ident) => {
        $(#[$about])*
        #[derive(Clone, Copy, PartialEq, Eq, PartialOrd, Ord, Hash)]
        pub struct $name(Piece<$length>);

        impl $name {
            /// Reads a text, in any case.
            ///
            /// # Errors
            ///
            /// Where it is none.
            pub fn try_from_str(text: &str) -> Result<Self, ParseError> {
                let read: fn(&str) -> Option<String> = $read;
                read(text).map(|it| Self::told(&it)).ok_or(ParseError::$fault)
            }

            /// The same of bytes.
            ///
            /// # Errors
            ///
            /// Those of `try_from_str`.
            pub fn try_from_utf8(text: &[u8]) -> Result<Self, ParseError> {
                std::str::from_utf8(text).map_err(|_| ParseError::$fault).and_then(Self::try_from_str)
            }

            /// It as it is written.
            #[must_use]
            pub fn as_str(&self) -> &str {
                self.0.as_str()
            }

            // One that the library has told.
            pub(crate) fn told(text: &str) -> Self {
                $name(Piece::of(text))
            }
        }

        impl FromStr for $name {
            type Err = ParseError;

            fn from_str(text: &str) -> Result<Self, ParseError> {
                Self::try_from_str(text)
            }
        }

        impl fmt::Display for $name {
            fn fmt(&self, to: &mut fmt::Formatter<'_>) -> fmt::Result {
                to.pad(self.as_str())
            }
        }

        impl fmt::Debug for $name {
            fn fmt(&self, to: &mut fmt::Formatter<'_>) -> fmt::Result {
                write!(to, "{}({:?})", stringify!($name), self.as_str())
            }
        }

        impl AsRef<str> for $name {
            fn as_ref(&self) -> &str {
                self.as_str()
            }
        }
    };
}

// The one part that a text behind `und` is, if it is one.
fn behind_und(text: &str, part: fn(&crate::Locale) -> Option<&str>) -> Option<String> {
    let whole = parts(&format!("und-{text}")).ok()?;
    let its = part(&whole)?.to_owned();
    (whole.as_str() == format!("und-{its}")).then_some(its)
}

subtag!(
    /// A language.
    Language,
    3,
    |text| parts(text).ok().filter(|it| it.as_str() == it.language()).map(|it| it.language().to_owned()),
    InvalidLanguage
);
subtag!(
    /// A script.
    Script,
    4,
    |text| behind_und(text, |it| it.script()),
    InvalidSubtag
);
subtag!(
    /// A region.
    Region,
    3,
    |text| behind_und(text, |it| it.region()),
    InvalidSubtag
);
subtag!(
    /// A variant.
    Variant,
    8,
    |text| behind_und(text, |it| it.variants().first().map(String::as_str)),
    InvalidSubtag
);

impl Language {
    /// `und`, where none is known.
    pub const UNKNOWN: Self = Language(Piece(*b"und"));

    /// Whether none is known.
    #[must_use]
    pub fn is_unknown(&self) -> bool {
        *self == Self::UNKNOWN
    }
}

impl Default for Language {
    fn default() -> Self {
        Self::UNKNOWN
    }
}

/// Variants in the order of their texts, each once. It is a slice of them.
#[derive(Clone, Debug, Default, PartialEq, Eq, PartialOrd, Ord, Hash)]
pub struct Variants(Vec<Variant>);

impl Variants {
    /// None.
    #[must_use]
    pub const fn new() -> Self {
        Variants(Vec::new())
    }

    /// One.
    #[must_use]
    pub fn from_variant(variant: Variant) -> Self {
        Variants(vec![variant])
    }

    /// Those of a list, put in order.
    #[must_use]
    pub fn from_vec_unchecked(mut variants: Vec<Variant>) -> Self {
        variants.sort_unstable();
        variants.dedup();
        Variants(variants)
    }

    /// Takes all out, and gives them.
    pub fn clear(&mut self) -> Self {
        std::mem::take(self)
    }
}

impl Deref for Variants {
    type Target = [Variant];

    fn deref(&self) -> &[Variant] {
        &self.0
    }
}

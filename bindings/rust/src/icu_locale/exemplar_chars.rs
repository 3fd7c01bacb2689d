//! Sets of exemplar characters. The first one of a locale opens its tables, which are kept.
use super::kept::{named, Names};
use super::names::DataError;
use super::DataLocale;
use crate::{ExemplarSet, Tables};

/// A set of exemplar characters.
///
/// ```
/// use icu_locale_calls::icu_locale::{exemplar_chars::ExemplarCharacters, locale};
/// # if icu_locale_calls::Tables::cldr(&[]).is_err() { return Ok(()) }
/// let main = ExemplarCharacters::try_new_main(&locale!("de-CH").into())?;
/// assert!(main.contains('\u{e4}') && main.contains_str("z") && !main.contains('Z'));
/// assert!(ExemplarCharacters::try_new_index(&locale!("de-CH").into())?.contains('Z'));
/// # Ok::<(), icu_locale_calls::Refusal>(())
/// ```
#[derive(Clone, Debug)]
pub struct ExemplarCharacters(ExemplarCharactersBorrowed<'static>);

/// The same, borrowed.
#[derive(Clone, Copy, Debug)]
pub struct ExemplarCharactersBorrowed<'a> {
    tables: &'a Tables,
    locale: &'a str,
    set: ExemplarSet,
}

impl ExemplarCharacters {
    /// The same, borrowed.
    #[must_use]
    pub const fn as_borrowed(&self) -> ExemplarCharactersBorrowed<'_> {
        self.0
    }
}

impl ExemplarCharactersBorrowed<'_> {
    /// Whether it has a character.
    ///
    /// # Panics
    ///
    /// Where memory is refused, and so do the other two.
    #[must_use]
    pub fn contains(&self, character: char) -> bool {
        self.contains_str(character.encode_utf8(&mut [0; 4]))
    }

    /// Whether it has the character of a number.
    #[must_use]
    pub fn contains32(&self, code_point: u32) -> bool {
        char::from_u32(code_point).is_some_and(|it| self.contains(it))
    }

    /// Whether it has a text: a character, or several that go together.
    #[must_use]
    pub fn contains_str(&self, text: &str) -> bool {
        self.tables.has_exemplar(self.set, self.locale, text).unwrap_or_else(|refusal| panic!("{refusal}"))
    }
}

impl ExemplarCharactersBorrowed<'static> {
    // The set of the first locale of the chain that CLDR has. Whether it is there, any text tells.
    fn of(locale: &DataLocale, set: ExemplarSet) -> Result<Self, DataError> {
        let locale = locale.locale()?;
        let tables = named(locale, Names::Whole)?;
        tables.has_exemplar(set, locale, "").map(|_| ExemplarCharactersBorrowed { tables, locale, set })
    }

    /// The same, owned.
    #[must_use]
    pub const fn static_to_owned(self) -> ExemplarCharacters {
        ExemplarCharacters(self)
    }
}

macro_rules! sets {
    ($($call:ident $set:ident)*) => {
        impl ExemplarCharactersBorrowed<'static> {$(
            #[doc = concat!("The set `", stringify!($set), "` of a locale.")]
            ///
            /// # Errors
            ///
            /// `NameMissing` where CLDR has no such locale, `Table` where it has no such set in it, `Memory`.
            pub fn $call(locale: &DataLocale) -> Result<Self, DataError> {
                Self::of(locale, ExemplarSet::$set)
            }
        )*}

        impl ExemplarCharacters {$(
            #[doc = concat!("The set `", stringify!($set), "` of a locale.")]
            ///
            /// # Errors
            ///
            /// `NameMissing` where CLDR has no such locale, `Table` where it has no such set in it, `Memory`.
            pub fn $call(locale: &DataLocale) -> Result<ExemplarCharactersBorrowed<'static>, DataError> {
                ExemplarCharactersBorrowed::$call(locale)
            }
        )*}
    };
}

sets! {
    try_new_main Main
    try_new_auxiliary Auxiliary
    try_new_punctuation Punctuation
    try_new_numbers Numbers
    try_new_index Index
}

//! A locale as a value: its parts, as the proved library tells them.
use crate::{Refusal, Syntax, Tables};
use std::cell::RefCell;
use std::fmt;
use std::str::FromStr;

/// A locale identifier with its parts. It does not change. Two are equal exactly if they are written alike, and they are
/// ordered as they are written.
///
/// ```
/// use icu_locale_calls::{Locale, Refusal};
/// let locale: Locale = "zh_hant_tw-u-nu-hanidec-ca-roc".parse()?;
/// assert_eq!(locale.to_string(), "zh-Hant-TW-u-ca-roc-nu-hanidec");
/// assert_eq!((locale.language(), locale.script(), locale.region()), ("zh", Some("Hant"), Some("TW")));
/// assert_eq!((locale.keyword("nu"), locale.keyword("hc")), (Some("hanidec"), None));
/// assert_eq!("en-u".parse::<Locale>(), Err(Refusal::InvalidSubtag));
/// # Ok::<(), Refusal>(())
/// ```
#[derive(Clone, Debug, PartialEq, Eq, PartialOrd, Ord, Hash)]
pub struct Locale {
    text: String,
    language: String,
    script: Option<String>,
    region: Option<String>,
    variants: Vec<String>,
    attributes: Vec<String>,
    keywords: Vec<(String, String)>,
    transform_language: Option<String>,
    fields: Vec<(String, String)>,
    extensions: Vec<(String, String)>,
    private_use: Option<String>,
}

thread_local! {
    // What asks no table is asked of tables that hold nothing, opened once in each thread.
    static WITHOUT_TABLES: RefCell<Option<Tables>> = const { RefCell::new(None) };
}

fn parts_of(text: &str, syntax: Syntax) -> Result<String, Refusal> {
    WITHOUT_TABLES.with(|kept| {
        let mut kept = kept.borrow_mut();
        let tables = match &mut *kept {
            Some(tables) => tables,
            none => none.insert(Tables::from_json(b"{}")?),
        };
        tables.answer(&format!("{} parts", syntax.word()), text.as_bytes())
    })
}

fn some(part: &str) -> Option<String> {
    (!part.is_empty()).then(|| part.to_owned())
}

fn members(part: &str) -> Vec<String> {
    part.split_terminator(' ').map(str::to_owned).collect()
}

// The rows of keywords, fields or other extensions: what is before the first `=` of each, and what is behind it.
fn rows(part: &str) -> Vec<(String, String)> {
    let row = |it: &str| it.split_once('=').map(|(key, value)| (key.to_owned(), value.to_owned()));
    part.split_terminator(' ').filter_map(row).collect()
}

impl Locale {
    /// Reads a text in a syntax. `parse` of a text reads one in the syntax `Locales`.
    ///
    /// # Errors
    ///
    /// `InvalidLanguage`, `InvalidSubtag` or `Memory`.
    ///
    /// ```
    /// use icu_locale_calls::{Locale, Syntax};
    /// assert_eq!(Locale::read("de_DE.UTF-8", Syntax::Posix)?, "de-DE".parse()?);
    /// # Ok::<(), icu_locale_calls::Refusal>(())
    /// ```
    pub fn read(text: &str, syntax: Syntax) -> Result<Self, Refusal> {
        let told = parts_of(text, syntax)?;
        let mut parts = told.split('\t');
        let mut next = || parts.next().unwrap_or_default();
        Ok(Locale {
            text: next().to_owned(),
            language: next().to_owned(),
            script: some(next()),
            region: some(next()),
            variants: members(next()),
            attributes: members(next()),
            keywords: rows(next()),
            transform_language: some(next()),
            fields: rows(next()),
            extensions: rows(next()),
            private_use: some(next()),
        })
    }

    /// The language; `und` where none is known.
    #[must_use]
    pub fn language(&self) -> &str {
        &self.language
    }

    /// The script.
    #[must_use]
    pub fn script(&self) -> Option<&str> {
        self.script.as_deref()
    }

    /// The region.
    #[must_use]
    pub fn region(&self) -> Option<&str> {
        self.region.as_deref()
    }

    /// The variants.
    #[must_use]
    pub fn variants(&self) -> &[String] {
        &self.variants
    }

    /// The attributes of the extension `u`.
    #[must_use]
    pub fn attributes(&self) -> &[String] {
        &self.attributes
    }

    /// The keywords of the extension `u`, in the order of their keys. The value `true` is empty.
    #[must_use]
    pub fn keywords(&self) -> &[(String, String)] {
        &self.keywords
    }

    /// The value at a key of the extension `u`, as at `ca` for the calendar.
    #[must_use]
    pub fn keyword(&self, key: &str) -> Option<&str> {
        self.keywords.iter().find(|(its, _)| its == key).map(|(_, value)| value.as_str())
    }

    /// The language that the extension `t` tells.
    #[must_use]
    pub fn transform_language(&self) -> Option<&str> {
        self.transform_language.as_deref()
    }

    /// The fields of the extension `t`, in the order of their keys.
    #[must_use]
    pub fn fields(&self) -> &[(String, String)] {
        &self.fields
    }

    /// The other extensions, each behind its letter.
    #[must_use]
    pub fn extensions(&self) -> &[(String, String)] {
        &self.extensions
    }

    /// What is behind `x`.
    #[must_use]
    pub fn private_use(&self) -> Option<&str> {
        self.private_use.as_deref()
    }

    /// The whole, as it is written.
    #[must_use]
    pub fn as_str(&self) -> &str {
        &self.text
    }
}

impl FromStr for Locale {
    type Err = Refusal;

    fn from_str(text: &str) -> Result<Self, Refusal> {
        Locale::read(text, Syntax::Locales)
    }
}

impl fmt::Display for Locale {
    fn fmt(&self, to: &mut fmt::Formatter<'_>) -> fmt::Result {
        to.pad(&self.text)
    }
}

impl AsRef<str> for Locale {
    fn as_ref(&self) -> &str {
        &self.text
    }
}

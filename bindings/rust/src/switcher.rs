//! What is available, and which of it is served to a reader.
use crate::calls::Handle;
use crate::headers::Headers;
use crate::pool::{line, Pool};
use crate::{MatchOptions, Refusal};

/// What is served to a reader: its place, counted from 0, and the locale that formats for the reader.
#[derive(Clone, Debug, PartialEq, Eq, Hash)]
pub struct Resolved {
    /// The place in what is available.
    pub available: usize,
    /// The locale by which numbers and dates are written for this reader.
    pub locale: String,
}

/// What is available, by `Tables::switcher` or `Tables::switcher_with`, and which of it is served. Any number of threads may
/// use it at once.
#[derive(Debug)]
pub struct Switcher {
    pool: Pool,
    words: String,
    available: Vec<String>,
}

impl Switcher {
    pub(crate) fn over(tables: Handle, available: Vec<String>, options: MatchOptions) -> Result<Self, Refusal> {
        Ok(Switcher { pool: Pool::listing(tables, "", &available)?, words: options.words(), available })
    }

    /// The identifiers that are available, as they were handed in.
    pub fn available(&self) -> &[String] {
        &self.available
    }

    /// What is served for the header Accept-Language: for one, for several or for none. None where nothing is near enough.
    ///
    /// # Errors
    ///
    /// `Table` where there are no match rules, which a supplement has, or no aliases, or `Memory`.
    ///
    /// ```
    /// use icu_locale_calls::{Tables, EXAMPLE, EXAMPLE_SUPPLEMENT};
    /// let tables = Tables::from_json_with(EXAMPLE.as_bytes(), EXAMPLE_SUPPLEMENT.as_bytes())?;
    /// let switcher = tables.switcher(["en", "zh_hant", "sr_latn"])?;
    /// assert_eq!(switcher.serve("sh;q=0.8, fr")?, Some("sr_latn"));
    /// assert_eq!(switcher.serve([b"fr".as_slice(), b"zh-TW-u-co-stroke"])?, Some("zh_hant"));
    /// assert_eq!(switcher.serve(None::<&str>)?, None);
    /// # Ok::<(), icu_locale_calls::Refusal>(())
    /// ```
    pub fn serve<H: Headers>(&self, headers: H) -> Result<Option<&str>, Refusal> {
        Ok(served(&self.pool, &self.words, headers)?.map(|place| self.available[place].as_str()))
    }

    /// What is nearest to requests, the most wanted first. None where nothing is near enough.
    ///
    /// # Errors
    ///
    /// Those of `serve`, and `List` where a request is no identifier.
    ///
    /// ```
    /// use icu_locale_calls::{Refusal, Tables, EXAMPLE, EXAMPLE_SUPPLEMENT};
    /// let tables = Tables::from_json_with(EXAMPLE.as_bytes(), EXAMPLE_SUPPLEMENT.as_bytes())?;
    /// let switcher = tables.switcher(["en", "en-GB", "zh_hant"])?;
    /// assert_eq!(switcher.nearest(["fr", "en-AU"])?, Some("en-GB"));
    /// assert_eq!(switcher.nearest(["fr"])?, None);
    /// assert_eq!(switcher.nearest(["fr", "en-"]), Err(Refusal::List));
    /// # Ok::<(), Refusal>(())
    /// ```
    pub fn nearest<R>(&self, requests: R) -> Result<Option<&str>, Refusal>
    where
        R: IntoIterator,
        R::Item: AsRef<str>,
    {
        Ok(nearest(&self.pool, &self.words, requests)?.map(|place| self.available[place].as_str()))
    }

    /// What is nearest to requests, with the region, the variants and the extensions of the one that wished it: the locale
    /// that formats for this reader. None where nothing is near enough.
    ///
    /// # Errors
    ///
    /// Those of `nearest`.
    ///
    /// ```
    /// use icu_locale_calls::{Resolved, Tables, EXAMPLE, EXAMPLE_SUPPLEMENT};
    /// let tables = Tables::from_json_with(EXAMPLE.as_bytes(), EXAMPLE_SUPPLEMENT.as_bytes())?;
    /// let switcher = tables.switcher(["de", "en-GB", "zh_hant"])?;
    /// let locale_for = |request: &str| switcher.resolved([request]).map(|found| found.map(|it| it.locale));
    /// assert_eq!(locale_for("en-AU-u-ca-buddhist")?.as_deref(), Some("en-AU-u-ca-buddhist"));
    /// assert_eq!(locale_for("zh-TW")?.as_deref(), Some("zh-Hant-TW"));
    /// assert_eq!(locale_for("fr")?, None);
    /// let found = switcher.resolved(["fr", "gsw-CH"])?;
    /// assert_eq!(found, Some(Resolved { available: 0, locale: "de-CH".to_owned() }));
    /// # Ok::<(), icu_locale_calls::Refusal>(())
    /// ```
    pub fn resolved<R>(&self, requests: R) -> Result<Option<Resolved>, Refusal>
    where
        R: IntoIterator,
        R::Item: AsRef<str>,
    {
        let told = asked(&self.pool, &format!("{}locales resolved", self.words), requests)?;
        let parts = told.split_once('\t').and_then(|(place, locale)| Some((place.parse().ok()?, locale)));
        Ok(parts.map(|(available, locale)| Resolved { available, locale: locale.to_owned() }))
    }
}

/// The place of what is served for headers, behind the words of options. Several are one, and none is empty.
pub fn served<H: Headers>(pool: &Pool, words: &str, headers: H) -> Result<Option<usize>, Refusal> {
    pool.answer(&format!("{words}serve"), &headers.one()).map(|told| place_of(&told))
}

/// The place of what is nearest to requests.
pub fn nearest<R>(pool: &Pool, words: &str, requests: R) -> Result<Option<usize>, Refusal>
where
    R: IntoIterator,
    R::Item: AsRef<str>,
{
    asked(pool, &format!("{words}locales nearest"), requests).map(|told| place_of(&told))
}

// The answer to requests.
fn asked<R>(pool: &Pool, command: &str, requests: R) -> Result<String, Refusal>
where
    R: IntoIterator,
    R::Item: AsRef<str>,
{
    pool.answer(command, line(requests)?.as_bytes()).map_err(|refusal| match refusal {
        Refusal::InvalidLanguage | Refusal::InvalidSubtag => Refusal::List,
        refusal => refusal,
    })
}

// The place that an answer tells, which is before a tab; `none` tells none.
fn place_of(told: &str) -> Option<usize> {
    told.split('\t').next().and_then(|place| place.parse().ok())
}

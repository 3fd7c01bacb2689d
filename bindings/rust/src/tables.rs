//! Tables: how they are opened, and what they serve a reader.
use crate::calls::{self, Handle};
use crate::data::{self, texts_of, texts_of_all};
use crate::pool::Pool;
use crate::switcher;
use crate::headers::Headers;
use crate::{MatchOptions, Negotiator, Refusal, Switcher, Syntax};

const ACCEPTED: i32 = 0;
// The word that is every locale.
const ALL: &str = "all";

// The first of each locale's chain that CLDR has names in.
fn in_chains(locales: &[&str]) -> Result<Vec<&'static str>, Refusal> {
    let tables = Tables::cldr(&[])?;
    let found = locales.iter().enumerate().map(|(place, locale)| {
        let of_chain = || tables.fallback(locale).ok()?.iter().find_map(|it| data::known(it));
        data::known(locale).or_else(of_chain).ok_or(Refusal::NoLocale { place })
    });
    found.collect()
}

/// Tables. Any number of threads may use them at once, by a reference or an `Arc`.
///
/// ```
/// use icu_locale_calls::{Tables, EXAMPLE};
/// let tables = Tables::from_json(EXAMPLE.as_bytes())?;
/// std::thread::scope(|scope| {
///     for _ in 0..4 {
///         scope.spawn(|| assert_eq!(tables.maximize("und-SA").as_deref(), Ok("ar-Arab-SA")));
///     }
/// });
/// # Ok::<(), icu_locale_calls::Refusal>(())
/// ```
#[derive(Debug)]
pub struct Tables {
    pub(crate) pool: Pool,
    pub(crate) syntax: Syntax,
}

impl Tables {
    /// The tables of a JSON text.
    ///
    /// # Errors
    ///
    /// `Json`, `Shape` or `Memory`.
    ///
    /// ```
    /// use icu_locale_calls::{Refusal, Tables};
    /// assert_eq!(Tables::from_json(b"{").err(), Some(Refusal::Json));
    /// assert_eq!(Tables::from_json(b"[]").err(), Some(Refusal::Shape));
    /// ```
    pub fn from_json(json: &[u8]) -> Result<Self, Refusal> {
        let mut handle = Handle::closed();
        // SAFETY: the slice is one of Rust's, and the handle a closed one that nobody else has.
        match unsafe { calls::icu_locale_open(json.as_ptr(), json.len(), &mut handle) } {
            ACCEPTED => Ok(Tables { pool: Pool::over(handle, None), syntax: Syntax::default() }),
            number => Err(Refusal::of_number(number)),
        }
    }

    /// The tables of a JSON text, and their supplement of another one: the parents of locales, the match rules by which a
    /// reader is served, and aliases of values.
    ///
    /// # Errors
    ///
    /// `Json`, `Shape` or `Memory`.
    ///
    /// ```
    /// use icu_locale_calls::{Refusal, Tables, EXAMPLE};
    /// let parents = r#"{"parents": {"en-AU": "en-001", "aa": "bb", "bb": "aa"}}"#;
    /// let tables = Tables::from_json_with(EXAMPLE.as_bytes(), parents.as_bytes())?;
    /// assert_eq!(tables.fallback("en-AU")?, ["en-AU", "en-001", "en", "und"]);
    /// assert_eq!(tables.fallback("aa"), Err(Refusal::Circle));
    /// # Ok::<(), Refusal>(())
    /// ```
    pub fn from_json_with(json: &[u8], supplement: &[u8]) -> Result<Self, Refusal> {
        let mut handle = Handle::closed();
        // SAFETY: the slice is one of Rust's, and the handle a closed one that nobody else has.
        let mut number = unsafe { calls::icu_locale_open(json.as_ptr(), json.len(), &mut handle) };
        if number == ACCEPTED {
            // SAFETY: the same, of an open one.
            number = unsafe { calls::icu_locale_supplement(&mut handle, supplement.as_ptr(), supplement.len()) };
        }
        match number {
            ACCEPTED => Ok(Tables { pool: Pool::over(handle, None), syntax: Syntax::default() }),
            number => Err(Refusal::of_number(number)),
        }
    }

    /// The tables of CLDR's data that this crate has inside, with the names of some locales, and their supplement, by which
    /// `serve` and `fallback` go, and which has what parts of extensions are called in these locales, but for subdivisions and
    /// time zones. The likely tables are settled. The word `all` alone is every locale, whose names are lent from where they lie
    /// in the program. A locale is found in any case, with `-` or `_`; in its place comes the first of its chain that CLDR has,
    /// as `zh-Hant-TW` for `zh-TW`. `cldr_locales` lists them.
    ///
    /// # Errors
    ///
    /// `NoLocale` where CLDR has no names in a chain, `NoData` where the crate was made without data, `Damaged` or `Memory`.
    ///
    /// ```
    /// use icu_locale_calls::{Refusal, Tables};
    /// # if Tables::cldr(&[]).err() == Some(Refusal::NoData) { return Ok(()) }
    /// let tables = Tables::cldr(&["en", "de"])?;
    /// assert_eq!(tables.name("de-AT", "en")?, "Austrian German");
    /// assert_eq!(tables.name("en-u-ca-buddhist", "en")?, "English (Buddhist Calendar)");
    /// assert_eq!(tables.name_by_fallback("de-AT", "de-CH")?, "\u{d6}sterreichisches Deutsch");
    /// assert_eq!(tables.serve(["iw, zh-HK;q=0.1"], ["en", "he", "zh-Hant"])?, Some("he"));
    /// assert_eq!(Tables::cldr(&["en", "xx"]).err(), Some(Refusal::NoLocale { place: 1 }));
    /// # Ok::<(), Refusal>(())
    /// ```
    pub fn cldr(locales: &[&str]) -> Result<Self, Refusal> {
        if locales == [ALL] {
            return Tables::cldr_all();
        }
        let texts = match texts_of(locales) {
            Err(Refusal::NoLocale { .. }) => texts_of(&in_chains(locales)?),
            texts => texts,
        };
        let (tables, supplement) = texts?;
        Tables::from_json_with(&tables, &supplement)
    }

    fn cldr_all() -> Result<Self, Refusal> {
        let (tables, supplement) = texts_of_all()?;
        let mut made = Tables::from_json_with(&tables, &supplement)?;
        made.lend_names(data::FLAT)?;
        Ok(made)
    }

    /// Lends names that lie in the flat form, in place of those lent before. Nothing is copied. A name is asked of the tables'
    /// own rows first, and then of what is lent. `include_bytes!` gives such bytes, and `Box::leak` makes them of a list.
    ///
    /// # Errors
    ///
    /// `Shape` where the bytes have not the form, or `Shared` where these tables were shared, or a negotiator or a switcher has
    /// them. What was lent before stays then.
    ///
    /// ```
    /// use icu_locale_calls::{Refusal, Tables, EXAMPLE};
    /// let flat = Tables::from_json(EXAMPLE.as_bytes())?.flat_names()?;
    /// let patterns = r#"{"essentials": {"en": {"pattern": [0, " (", 1, ")"], "separator": [0, ", ", 1]}}}"#;
    /// let mut tables = Tables::from_json(patterns.as_bytes())?;
    /// assert_eq!(tables.name("it-US", "en")?, "it (US)");
    /// tables.lend_names(flat.leak())?;
    /// assert_eq!(tables.name("it-US", "en")?, "Italian (United States)");
    /// assert_eq!(tables.lend_names(b"ICUTEXT1"), Err(Refusal::Shape));
    /// let other = tables.share()?;
    /// assert_eq!(tables.lend_names(b"ICUTEXT1\0\0\0\0\0\0\0\0\0\0\0\0"), Err(Refusal::Shared));
    /// # Ok::<(), Refusal>(())
    /// ```
    pub fn lend_names(&mut self, names: &'static [u8]) -> Result<(), Refusal> {
        self.pool.lend_names(names)
    }

    /// The names of the tables themselves, without those that are lent to them, in the flat form.
    ///
    /// # Errors
    ///
    /// `Shape` where a key or a text has more than 65,535 bytes, or `Memory`.
    ///
    /// ```
    /// use icu_locale_calls::{Tables, EXAMPLE};
    /// assert!(Tables::from_json(EXAMPLE.as_bytes())?.flat_names()?.starts_with(b"ICUTEXT1"));
    /// # Ok::<(), icu_locale_calls::Refusal>(())
    /// ```
    pub fn flat_names(&self) -> Result<Vec<u8>, Refusal> {
        self.pool.flat_names()
    }

    // Those that name no dialects, in a locale that CLDR has.
    pub(crate) fn cldr_standard(locale: &str) -> Result<Self, Refusal> {
        let (tables, supplement) = data::standard_of(locale)?;
        Tables::from_json_with(&tables, &supplement)
    }

    // Those that name scripts, regions and variants alone, in a locale that CLDR has.
    pub(crate) fn cldr_parts(locale: &str) -> Result<Self, Refusal> {
        Tables::from_json(&data::parts_of(locale)?)
    }

    /// The same tables once more, to be let go apart. They are in memory once.
    ///
    /// # Errors
    ///
    /// `Memory`.
    ///
    /// ```
    /// use icu_locale_calls::{Tables, EXAMPLE};
    /// let first = Tables::from_json(EXAMPLE.as_bytes())?;
    /// let other = first.share()?;
    /// let thread = std::thread::spawn(move || other.maximize("und-SA"));
    /// assert_eq!(first.maximize("und-SA"), thread.join().unwrap());
    /// # Ok::<(), icu_locale_calls::Refusal>(())
    /// ```
    pub fn share(&self) -> Result<Self, Refusal> {
        Ok(Tables { pool: Pool::over(self.pool.share()?, None), syntax: self.syntax })
    }

    /// The same tables, which read texts in a syntax. At first that is `Locales`.
    ///
    /// ```
    /// use icu_locale_calls::{Syntax, Tables, EXAMPLE};
    /// let tables = Tables::from_json(EXAMPLE.as_bytes())?;
    /// assert_eq!(tables.maximize("zh-u-nu-hanidec")?, "zh-Hans-CN-u-nu-hanidec");
    /// assert_eq!(tables.with_syntax(Syntax::Posix).maximize("zh_TW.UTF-8")?, "zh-Hant-TW");
    /// # Ok::<(), icu_locale_calls::Refusal>(())
    /// ```
    #[must_use]
    pub fn with_syntax(self, syntax: Syntax) -> Self {
        Tables { syntax, ..self }
    }

    /// What serves a reader one of the identifiers that are available. It holds these tables too.
    ///
    /// # Errors
    ///
    /// `Table` where a likely table is left out, `List` or `Memory`.
    ///
    /// ```
    /// use icu_locale_calls::{Match, Refusal, Tables, EXAMPLE};
    /// let tables = Tables::from_json(EXAMPLE.as_bytes())?;
    /// let negotiator = tables.negotiator(["en", "zh-Hant"])?;
    /// assert_eq!(negotiator.negotiate(["zh-TW"])?, Some(Match { request: 0, available: 1 }));
    /// assert_eq!(tables.negotiator(["en", "zh Hant"]).err(), Some(Refusal::List));
    /// # Ok::<(), Refusal>(())
    /// ```
    pub fn negotiator<I>(&self, available: I) -> Result<Negotiator, Refusal>
    where
        I: IntoIterator,
        I::Item: Into<String>,
    {
        Negotiator::over(self.pool.share()?, "", available.into_iter().map(Into::into).collect())
    }

    /// The same of locale identifiers in a syntax, in which requests are read too. Extensions have no part in what is met.
    ///
    /// # Errors
    ///
    /// Those of `negotiator`.
    ///
    /// ```
    /// use icu_locale_calls::{Match, Syntax, Tables, EXAMPLE};
    /// let tables = Tables::from_json(EXAMPLE.as_bytes())?;
    /// let negotiator = tables.negotiator_in(Syntax::Locales, ["de", "en-u-hc-h12"])?;
    /// assert_eq!(negotiator.negotiate(["fr-x-a", "en-u-nu-latn"])?, Some(Match { request: 1, available: 1 }));
    /// # Ok::<(), icu_locale_calls::Refusal>(())
    /// ```
    pub fn negotiator_in<I>(&self, syntax: Syntax, available: I) -> Result<Negotiator, Refusal>
    where
        I: IntoIterator,
        I::Item: Into<String>,
    {
        Negotiator::over(self.pool.share()?, syntax.word(), available.into_iter().map(Into::into).collect())
    }

    /// What the program `icu_locale_cli` answers to a line, without its line feed, by the words of a command.
    ///
    /// # Errors
    ///
    /// Every refusal but `Json`, `Shape`, `List` and `Unsettled`.
    pub fn answer(&self, command: &str, line: &[u8]) -> Result<String, Refusal> {
        self.pool.answer(command, line)
    }

    /// What serves a reader by the header Accept-Language. It holds these tables too.
    ///
    /// # Errors
    ///
    /// Those of `negotiator`.
    ///
    /// ```
    /// use icu_locale_calls::{Tables, EXAMPLE, EXAMPLE_SUPPLEMENT};
    /// let tables = Tables::from_json_with(EXAMPLE.as_bytes(), EXAMPLE_SUPPLEMENT.as_bytes())?;
    /// let switcher = tables.switcher(["en", "zh-Hant"])?;
    /// assert_eq!(switcher.serve(["fr, zh-TW;q=0.5"])?, Some("zh-Hant"));
    /// assert_eq!(switcher.serve(["fr"])?.unwrap_or("en"), "en");
    /// # Ok::<(), icu_locale_calls::Refusal>(())
    /// ```
    pub fn switcher<I>(&self, available: I) -> Result<Switcher, Refusal>
    where
        I: IntoIterator,
        I::Item: Into<String>,
    {
        self.switcher_with(available, MatchOptions::default())
    }

    /// The same with what is near enough to be served.
    ///
    /// # Errors
    ///
    /// Those of `negotiator`.
    ///
    /// ```
    /// use icu_locale_calls::{MatchOptions, Tables, EXAMPLE, EXAMPLE_SUPPLEMENT};
    /// let tables = Tables::from_json_with(EXAMPLE.as_bytes(), EXAMPLE_SUPPLEMENT.as_bytes())?;
    /// let (requests, nearest) = (["en-AU", "de"], MatchOptions { demotion: 0, ..MatchOptions::default() });
    /// assert_eq!(tables.switcher(["en-GB", "de"])?.nearest(requests)?, Some("en-GB"));
    /// assert_eq!(tables.switcher_with(["en-GB", "de"], nearest)?.nearest(requests)?, Some("de"));
    /// # Ok::<(), icu_locale_calls::Refusal>(())
    /// ```
    pub fn switcher_with<I>(&self, available: I, options: MatchOptions) -> Result<Switcher, Refusal>
    where
        I: IntoIterator,
        I::Item: Into<String>,
    {
        Switcher::over(self.pool.share()?, available.into_iter().map(Into::into).collect(), options)
    }

    /// What is served of the available identifiers, as it was handed in, for the header Accept-Language: for one, for several
    /// or for none. None where nothing is near enough. A service that is asked again keeps a `switcher`.
    ///
    /// # Errors
    ///
    /// Those of `negotiator`, and `Table` where there are no match rules, which a supplement has, or no aliases.
    ///
    /// ```
    /// use icu_locale_calls::{Refusal, Tables, EXAMPLE, EXAMPLE_SUPPLEMENT};
    /// let tables = Tables::from_json_with(EXAMPLE.as_bytes(), EXAMPLE_SUPPLEMENT.as_bytes())?;
    /// assert_eq!(tables.serve("fr, en;q=0.5", ["en", "zh_hant"])?, Some("en"));
    /// assert_eq!(tables.serve(["fr;q=0.1", "de-AT, *;q=0.2"], ["en", "zh_hant"])?, Some("en"));
    /// assert_eq!(tables.serve(None::<&str>, ["en", "zh_hant"])?, None);
    /// assert_eq!(Tables::from_json(EXAMPLE.as_bytes())?.serve(["en"], ["en"]), Err(Refusal::Table { member: "matching" }));
    /// # Ok::<(), Refusal>(())
    /// ```
    pub fn serve<H, I>(&self, headers: H, available: I) -> Result<Option<I::Item>, Refusal>
    where
        H: Headers,
        I: IntoIterator,
        I::Item: AsRef<str>,
    {
        let mut available: Vec<I::Item> = available.into_iter().collect();
        let place = switcher::served(&self.listing(&available)?, "", headers)?;
        Ok(place.map(|place| available.swap_remove(place)))
    }

    /// What is nearest to requests, the most wanted first, of the available identifiers, as it was handed in. None where
    /// nothing is near enough.
    ///
    /// # Errors
    ///
    /// Those of `serve`, and `List` where a request is no identifier.
    ///
    /// ```
    /// use icu_locale_calls::{Tables, EXAMPLE, EXAMPLE_SUPPLEMENT};
    /// let tables = Tables::from_json_with(EXAMPLE.as_bytes(), EXAMPLE_SUPPLEMENT.as_bytes())?;
    /// assert_eq!(tables.nearest(["fr", "en-AU"], ["de", "en", "en-gb"])?, Some("en-gb"));
    /// # Ok::<(), icu_locale_calls::Refusal>(())
    /// ```
    pub fn nearest<R, I>(&self, requests: R, available: I) -> Result<Option<I::Item>, Refusal>
    where
        R: IntoIterator,
        R::Item: AsRef<str>,
        I: IntoIterator,
        I::Item: AsRef<str>,
    {
        let mut available: Vec<I::Item> = available.into_iter().collect();
        let place = switcher::nearest(&self.listing(&available)?, "", requests)?;
        Ok(place.map(|place| available.swap_remove(place)))
    }

    // Handles to these tables that hold a list.
    fn listing<T: AsRef<str>>(&self, available: &[T]) -> Result<Pool, Refusal> {
        Pool::listing(self.pool.share()?, "", available)
    }
}

//! What tables are asked about one identifier, and the menu of several.
use crate::calls;
use crate::menu::{in_order, MenuRow};
use crate::names::before_mark;
use crate::pool::{refusal, LIKELY};
use crate::{Chain, Direction, Name, Refusal, Tables};

impl Tables {
    /// How far an identifier that may be served is from one that is desired, by the match rules. Their maximal forms are
    /// compared, and no alias is looked up.
    ///
    /// # Errors
    ///
    /// Those of `maximize`; `Table` where there are no match rules too.
    ///
    /// ```
    /// use icu_locale_calls::{Tables, EXAMPLE, EXAMPLE_SUPPLEMENT};
    /// let tables = Tables::from_json_with(EXAMPLE.as_bytes(), EXAMPLE_SUPPLEMENT.as_bytes())?;
    /// assert_eq!(tables.distance("en-AU", "en-GB")?, 3);
    /// # Ok::<(), icu_locale_calls::Refusal>(())
    /// ```
    pub fn distance(&self, desired: &str, supported: &str) -> Result<u32, Refusal> {
        Ok(self.told("distance", &format!("{desired} {supported}"))?.parse().expect("a distance is a number"))
    }

    /// Whether two texts have one canonical form.
    ///
    /// # Errors
    ///
    /// Those of `canonicalize`.
    ///
    /// ```
    /// use icu_locale_calls::{Tables, EXAMPLE};
    /// let tables = Tables::from_json(EXAMPLE.as_bytes())?;
    /// assert!(tables.are_same("sh", "SR_latn")?);
    /// # Ok::<(), icu_locale_calls::Refusal>(())
    /// ```
    pub fn are_same(&self, first: &str, second: &str) -> Result<bool, Refusal> {
        Ok(self.canonicalize(first)? == self.canonicalize(second)?)
    }

    // The answer to a text in the syntax of these tables.
    pub(crate) fn told(&self, command: &str, text: &str) -> Result<String, Refusal> {
        self.answer(&format!("{} {command}", self.syntax.word()), text.as_bytes())
    }

    // What is before the mark of an answer.
    fn form(&self, command: &str, text: &str) -> Result<String, Refusal> {
        self.told(command, text).map(before_mark)
    }

    /// The maximal form: with the likely script and region.
    ///
    /// # Errors
    ///
    /// `InvalidLanguage`, `InvalidSubtag`, `Table` or `Memory`.
    pub fn maximize(&self, identifier: &str) -> Result<String, Refusal> {
        self.form("maximize", identifier)
    }

    /// The minimal form, the region kept before the script.
    ///
    /// # Errors
    ///
    /// Those of `maximize`.
    pub fn minimize(&self, identifier: &str) -> Result<String, Refusal> {
        self.form("minimize", identifier)
    }

    /// The minimal form, the script kept before the region.
    ///
    /// # Errors
    ///
    /// Those of `maximize`.
    pub fn minimize_favor_script(&self, identifier: &str) -> Result<String, Refusal> {
        self.form("minimize-script", identifier)
    }

    /// The canonical form, that of the language after `t` and of the values at `rg` and `sd` too, and by the aliases of
    /// values in a supplement those at the keys of `u` and `t`.
    ///
    /// # Errors
    ///
    /// Those of `maximize`, or `NoFixedPoint`, `NoSubdivisionFixedPoint`, `NoValueFixedPoint` or `NoFieldFixedPoint`.
    pub fn canonicalize(&self, identifier: &str) -> Result<String, Refusal> {
        if identifier.contains('\t') {
            return Err(Refusal::InvalidSubtag);
        }
        self.form("canonicalize", identifier)
    }

    /// The key of a locale in a store: its canonical form, with the shortest identifier that means the same. Texts that mean
    /// the same have one key.
    ///
    /// # Errors
    ///
    /// Those of `canonicalize`; `NoFixedPoint` also where no key stays.
    ///
    /// ```
    /// use icu_locale_calls::{Tables, EXAMPLE};
    /// let tables = Tables::from_json(EXAMPLE.as_bytes())?;
    /// assert_eq!(tables.key("zh-Hant-TW-u-hc-h12")?, "zh-TW-u-hc-h12");
    /// assert_eq!(tables.identifier_key("zh-Hant-TW-u-hc-h12")?, "zh-TW");
    /// # Ok::<(), icu_locale_calls::Refusal>(())
    /// ```
    pub fn key(&self, identifier: &str) -> Result<String, Refusal> {
        self.form("key", identifier)
    }

    /// The key of the identifier of a locale alone.
    ///
    /// # Errors
    ///
    /// Those of `key`.
    pub fn identifier_key(&self, identifier: &str) -> Result<String, Refusal> {
        self.form("identifier-key", identifier)
    }

    /// The canonical form of an identifier alone, and that of a value at the key `rg`.
    ///
    /// # Errors
    ///
    /// Those of `canonicalize`, or `NoSubdivisionFixedPoint`.
    ///
    /// ```
    /// use icu_locale_calls::{Tables, EXAMPLE};
    /// let tables = Tables::from_json(EXAMPLE.as_bytes())?;
    /// assert_eq!(tables.canonicalize_with("sh", "abcdefg")?, ("sr-Latn".to_owned(), "xyz".to_owned()));
    /// # Ok::<(), icu_locale_calls::Refusal>(())
    /// ```
    pub fn canonicalize_with(&self, identifier: &str, value: &str) -> Result<(String, String), Refusal> {
        let form = before_mark(self.answer("canonicalize", format!("{identifier}\t{value}").as_bytes())?);
        let (identifier, value) = form.split_once('\t').unwrap_or((&form, ""));
        Ok((identifier.to_owned(), value.to_owned()))
    }

    /// Which way the likely script of an identifier runs, where that is known.
    ///
    /// # Errors
    ///
    /// Those of `maximize`.
    ///
    /// ```
    /// use icu_locale_calls::{Direction, Tables, EXAMPLE};
    /// let tables = Tables::from_json(EXAMPLE.as_bytes())?;
    /// assert_eq!(tables.direction("ar")?, Some(Direction::RightToLeft));
    /// # Ok::<(), icu_locale_calls::Refusal>(())
    /// ```
    pub fn direction(&self, identifier: &str) -> Result<Option<Direction>, Refusal> {
        Ok(match self.told("direction", identifier)?.as_str() {
            "ltr" => Some(Direction::LeftToRight),
            "rtl" => Some(Direction::RightToLeft),
            _ => None,
        })
    }

    /// The name of an identifier in the language of the preferences, by the chain `light`, with what its extensions say where
    /// the supplement has names of extensions in that language.
    ///
    /// # Errors
    ///
    /// `InvalidLanguage`, `InvalidSubtag`, `NameMissing` or `Memory`, and `Preferences` where those are no identifier without
    /// variants.
    pub fn name(&self, identifier: &str, preferences: &str) -> Result<String, Refusal> {
        self.name_in(identifier, preferences, Chain::Light).map(|name| name.text)
    }

    /// The same by a chain, and whether a part of it is raw.
    ///
    /// # Errors
    ///
    /// Those of `name`.
    ///
    /// ```
    /// use icu_locale_calls::{Chain, Refusal, Tables, EXAMPLE};
    /// let tables = Tables::from_json(EXAMPLE.as_bytes())?;
    /// let name = tables.name_in("it-Qabc-150", "en", Chain::Light)?;
    /// assert_eq!((name.text.as_str(), name.is_raw), ("Italian (Qabc, Europe)", true));
    /// assert_eq!(tables.name_in("ku", "en", Chain::MenuLight)?.to_string(), "Kurdish (Kurmanji)");
    /// assert_eq!(tables.name_in("ku", "no language", Chain::Light), Err(Refusal::Preferences));
    /// # Ok::<(), Refusal>(())
    /// ```
    pub fn name_in(&self, identifier: &str, preferences: &str, chain: Chain) -> Result<Name, Refusal> {
        Name::told(self.told(&format!("name {} {preferences}", chain.word()), identifier))
    }

    /// The identifiers that a loader asks after one another, from this one, without its extensions, to `und`.
    ///
    /// # Errors
    ///
    /// Those of `maximize`, or `Circle`.
    ///
    /// ```
    /// use icu_locale_calls::{Tables, EXAMPLE};
    /// let tables = Tables::from_json(EXAMPLE.as_bytes())?;
    /// assert_eq!(tables.fallback("zh-TW")?, ["zh-TW", "zh-Hant-TW", "zh-Hant", "und"]);
    /// # Ok::<(), icu_locale_calls::Refusal>(())
    /// ```
    pub fn fallback(&self, identifier: &str) -> Result<Vec<String>, Refusal> {
        Ok(self.told("fallback", identifier)?.split(' ').map(str::to_owned).collect())
    }

    /// The name of an identifier in the first locale after the preferences that the tables have, by the chain `light`.
    ///
    /// # Errors
    ///
    /// Those of `name` and of `fallback`.
    ///
    /// ```
    /// use icu_locale_calls::{Tables, EXAMPLE};
    /// let tables = Tables::from_json(EXAMPLE.as_bytes())?;
    /// assert_eq!(tables.name_by_fallback("it", "en-AU")?, "Italian");
    /// # Ok::<(), icu_locale_calls::Refusal>(())
    /// ```
    pub fn name_by_fallback(&self, identifier: &str, preferences: &str) -> Result<String, Refusal> {
        for locale in self.fallback(preferences)? {
            match self.name(identifier, &locale) {
                Err(Refusal::NameMissing) => {}
                told => return told,
            }
        }
        Err(Refusal::NameMissing)
    }

    /// The languages of a list for a menu: each with its name in one language and its own name, in the order of the first
    /// by code point. Rust has no other sort key; `sort_by_key` with one of yours puts them in another order.
    ///
    /// # Errors
    ///
    /// Those of `name`.
    ///
    /// ```
    /// use icu_locale_calls::{Tables, EXAMPLE};
    /// let tables = Tables::from_json(EXAMPLE.as_bytes())?;
    /// let rows = tables.menu(["en"], "en")?;
    /// assert_eq!((rows[0].locale.as_str(), rows[0].name.as_str(), rows[0].own.as_str()), ("en", "English", "English"));
    /// # Ok::<(), icu_locale_calls::Refusal>(())
    /// ```
    pub fn menu<I>(&self, locales: I, language: &str) -> Result<Vec<MenuRow>, Refusal>
    where
        I: IntoIterator,
        I::Item: Into<String>,
    {
        self.menu_of(locales, language, Tables::name)
    }

    /// The same, with names in the first locale after the language, and after each of the list, that the tables have.
    ///
    /// # Errors
    ///
    /// Those of `name_by_fallback`.
    ///
    /// ```
    /// use icu_locale_calls::{Tables, EXAMPLE};
    /// let tables = Tables::from_json(EXAMPLE.as_bytes())?;
    /// assert_eq!(tables.menu_by_fallback(["en-US"], "en-AU")?[0].own, "English (United States)");
    /// # Ok::<(), icu_locale_calls::Refusal>(())
    /// ```
    pub fn menu_by_fallback<I>(&self, locales: I, language: &str) -> Result<Vec<MenuRow>, Refusal>
    where
        I: IntoIterator,
        I::Item: Into<String>,
    {
        self.menu_of(locales, language, Tables::name_by_fallback)
    }

    // The rows of a menu, by what names an identifier in a language.
    fn menu_of<I>(
        &self,
        locales: I,
        language: &str,
        named: impl Fn(&Self, &str, &str) -> Result<String, Refusal>,
    ) -> Result<Vec<MenuRow>, Refusal>
    where
        I: IntoIterator,
        I::Item: Into<String>,
    {
        let rows = locales.into_iter().map(|locale| {
            let locale = locale.into();
            Ok(MenuRow { name: named(self, &locale, language)?, own: named(self, &locale, &locale)?, locale })
        });
        Ok(in_order(rows.collect::<Result<_, Refusal>>()?))
    }

    /// Whether the likely tables are settled. It looks at each row.
    ///
    /// # Errors
    ///
    /// `Table` where a likely table is left out.
    pub fn is_settled(&self) -> Result<bool, Refusal> {
        self.pool.with(|handle| {
            // SAFETY: no other call is made on the handle, by `&mut`.
            match unsafe { calls::icu_locale_is_settled(handle) } {
                0 => Ok(false),
                1 => Ok(true),
                number => Err(refusal(number, handle, LIKELY)),
            }
        })?
    }
}

//! What tables know of codes: which are valid, what each is called, which have a name, and exemplar characters.
use crate::{Chain, Name, Refusal, Tables};
use std::ops::Range;

const VALID: &str = "valid"; // what is told of an identifier without a fault
const YES: &str = "yes";

// Values that the program writes as words.
macro_rules! words {
    ($($(#[$about:meta])* $name:ident { $($(#[$of:meta])* $value:ident $word:literal,)* })*) => {$(
        $(#[$about])*
        #[derive(Clone, Copy, Debug, PartialEq, Eq, Hash)]
        pub enum $name {
            $($(#[$of])* $value,)*
        }

        impl $name {
            /// Each of them.
            pub const ALL: &'static [Self] = &[$($name::$value,)*];

            /// Its word, as the program writes it.
            #[must_use]
            pub const fn as_str(self) -> &'static str {
                match self {
                    $($name::$value => $word,)*
                }
            }
        }
    )*};
}

words! {
    /// What a part of an identifier is.
    #[non_exhaustive]
    PartKind {
        /// Its language, or the one behind `t`.
        Language "language",
        /// A script.
        Script "script",
        /// A region.
        Region "region",
        /// A variant.
        Variant "variant",
        /// An attribute of the extension `u`.
        Attribute "attribute",
        /// A keyword of the extension `u`: a key, and its value.
        Keyword "keyword",
        /// A field of the extension `t`.
        Field "field",
        /// Another extension.
        Extension "extension",
    }

    /// Why a part is not valid.
    #[non_exhaustive]
    CodeStatus {
        /// It is listed, and is no longer to be used.
        Deprecated "deprecated",
        /// It is kept for later use.
        Reserved "reserved",
        /// It is not listed.
        Unlisted "unlisted",
        /// It is a subdivision of another region.
        OtherRegion "other_region",
    }

    /// Which names of a script are asked, in order.
    #[derive(Default)]
    ScriptChain {
        /// The names that are wanted most.
        Tiny "tiny",
        /// Its own before these.
        #[default]
        Light "light",
        /// Those of rare scripts before both.
        Heavy "heavy",
        /// Short names first.
        ShortHeavy "short-heavy",
    }

    /// Which names of a region are asked, in order.
    #[derive(Default)]
    RegionChain {
        /// The names that are wanted most.
        Tiny "tiny",
        /// Short ones first.
        ShortTiny "short-tiny",
        /// All names.
        #[default]
        Light "light",
        /// Short ones first.
        ShortLight "short-light",
    }

    /// Subtags that have names.
    SubtagKind {
        /// Languages.
        Languages "languages",
        /// Scripts.
        Scripts "scripts",
        /// Regions.
        Regions "regions",
        /// Variants.
        Variants "variants",
    }

    /// A set of exemplar characters.
    ExemplarSet {
        /// Those that the language is written with.
        Main "main",
        /// Those of foreign words.
        Auxiliary "auxiliary",
        /// Those between words.
        Punctuation "punctuation",
        /// Those of numbers.
        Numbers "numbers",
        /// Those at the head of lists.
        Index "index",
    }
}

/// A part of an identifier that is not valid, by `Tables::validate`.
#[derive(Clone, Debug, PartialEq, Eq, Hash)]
pub struct Invalid {
    /// What it is.
    pub kind: PartKind,
    /// It as it is written.
    pub text: String,
    /// Why it is not valid.
    pub status: CodeStatus,
    /// Its bytes in the identifier.
    pub place: Range<usize>,
}

impl Invalid {
    // The part that five words tell.
    fn told(part: &str) -> Option<Self> {
        let mut words = part.split(' ');
        let (kind, text, status) = (words.next()?, words.next()?, words.next()?);
        Some(Invalid {
            kind: PartKind::ALL.iter().copied().find(|it| it.as_str() == kind)?,
            text: text.to_owned(),
            status: CodeStatus::ALL.iter().copied().find(|it| it.as_str() == status)?,
            place: words.next()?.parse().ok()?..words.next()?.parse().ok()?,
        })
    }
}

impl Tables {
    /// The parts of an identifier that are not valid (UTS #35 Part 1, Validity Data); none where all are.
    ///
    /// # Errors
    ///
    /// `InvalidLanguage`, `InvalidSubtag` or `Memory`, and `Table` where there is no table of validity, which a supplement has.
    ///
    /// ```
    /// use icu_locale_calls::{CodeStatus, Invalid, PartKind, Refusal, Tables, EXAMPLE};
    /// let validity = r#"{"validity":{"language":{"regular":"de"},"region":{"regular":"AT DE","deprecated":"DD"}}}"#;
    /// let tables = Tables::from_json_with(EXAMPLE.as_bytes(), validity.as_bytes())?;
    /// let (kind, status) = (PartKind::Region, CodeStatus::Deprecated);
    /// assert_eq!(tables.validate("de-DD")?, [Invalid { kind, text: "DD".into(), status, place: 3..5 }]);
    /// assert_eq!(tables.validate("de-AT")?, []);
    /// assert_eq!(Tables::from_json(EXAMPLE.as_bytes())?.validate("de"), Err(Refusal::Table { member: "validity" }));
    /// # Ok::<(), Refusal>(())
    /// ```
    pub fn validate(&self, identifier: &str) -> Result<Vec<Invalid>, Refusal> {
        let told = self.told("validate", identifier)?;
        let parts = told.split('\t').filter(|it| *it != VALID);
        Ok(parts.map(|it| Invalid::told(it).expect("a part is told by five words")).collect())
    }

    /// Whether a text is an identifier, and each part of it is valid.
    ///
    /// # Errors
    ///
    /// `Table` or `Memory`.
    pub fn is_valid(&self, text: &str) -> Result<bool, Refusal> {
        match self.told("validate", text) {
            Ok(told) => Ok(told == VALID),
            Err(Refusal::InvalidLanguage | Refusal::InvalidSubtag) => Ok(false),
            Err(refusal) => Err(refusal),
        }
    }

    /// What a language alone is called in the language of the preferences.
    ///
    /// # Errors
    ///
    /// `InvalidLanguage` where it is none, or those of `name`.
    ///
    /// ```
    /// use icu_locale_calls::{Chain, Refusal, Tables, EXAMPLE};
    /// let tables = Tables::from_json(EXAMPLE.as_bytes())?;
    /// assert_eq!(tables.language_name("it", "en", Chain::Light)?.text, "Italian");
    /// assert_eq!(tables.language_name("it-US", "en", Chain::Light), Err(Refusal::InvalidLanguage));
    /// # Ok::<(), Refusal>(())
    /// ```
    pub fn language_name(&self, language: &str, preferences: &str, chain: Chain) -> Result<Name, Refusal> {
        self.named("language-name", language, preferences, chain.word())
    }

    /// What a script alone is called. Where the tables have no name for it, it is itself and raw.
    ///
    /// # Errors
    ///
    /// `InvalidSubtag` where it is none, `Memory`, or `Preferences` where those are no identifier without variants.
    ///
    /// ```
    /// use icu_locale_calls::{ScriptChain, Tables, EXAMPLE};
    /// let tables = Tables::from_json(EXAMPLE.as_bytes())?;
    /// assert_eq!(tables.script_name("latn", "en", ScriptChain::Light)?.text, "Latin");
    /// # Ok::<(), icu_locale_calls::Refusal>(())
    /// ```
    pub fn script_name(&self, script: &str, preferences: &str, chain: ScriptChain) -> Result<Name, Refusal> {
        self.named("script-name", script, preferences, chain.as_str())
    }

    /// What a region alone is called. Where the tables have no name for it, it is itself and raw.
    ///
    /// # Errors
    ///
    /// Those of `script_name`.
    ///
    /// ```
    /// use icu_locale_calls::{RegionChain, Tables, EXAMPLE};
    /// let tables = Tables::from_json(EXAMPLE.as_bytes())?;
    /// assert_eq!(tables.region_name("us", "en", RegionChain::Light)?.text, "United States");
    /// assert_eq!(tables.region_name("US", "en", RegionChain::ShortLight)?.text, "US");
    /// assert!(tables.region_name("QX", "en", RegionChain::Light)?.is_raw);
    /// # Ok::<(), icu_locale_calls::Refusal>(())
    /// ```
    pub fn region_name(&self, region: &str, preferences: &str, chain: RegionChain) -> Result<Name, Refusal> {
        self.named("region-name", region, preferences, chain.as_str())
    }

    /// What a variant alone is called. Where the tables have no name for it, it is itself and raw.
    ///
    /// # Errors
    ///
    /// Those of `script_name`.
    ///
    /// ```
    /// use icu_locale_calls::{Tables, EXAMPLE};
    /// let tables = Tables::from_json(EXAMPLE.as_bytes())?;
    /// assert_eq!(tables.variant_name("FONIPA", "en")?.text, "IPA Phonetics");
    /// # Ok::<(), icu_locale_calls::Refusal>(())
    /// ```
    pub fn variant_name(&self, variant: &str, preferences: &str) -> Result<Name, Refusal> {
        self.named("variant-name", variant, preferences, "heavy")
    }

    // What a task calls a subtag by a chain.
    fn named(&self, task: &str, subtag: &str, preferences: &str, chain: &str) -> Result<Name, Refusal> {
        Name::told(self.answer(&format!("{task} {chain} {preferences}"), subtag.as_bytes()))
    }

    /// The subtags of a kind that the tables have names for in a locale, in the order of their texts.
    ///
    /// # Errors
    ///
    /// `Memory`, or `Preferences` where the locale is no identifier without variants.
    ///
    /// ```
    /// use icu_locale_calls::{SubtagKind, Tables, EXAMPLE};
    /// let tables = Tables::from_json(EXAMPLE.as_bytes())?;
    /// assert_eq!(tables.listed(SubtagKind::Regions, "en")?, ["150", "US"]);
    /// # Ok::<(), icu_locale_calls::Refusal>(())
    /// ```
    pub fn listed(&self, kind: SubtagKind, locale: &str) -> Result<Vec<String>, Refusal> {
        let told = self.answer(&format!("list {} {locale}", kind.as_str()), b"").map_err(Refusal::of_preferences)?;
        Ok(told.split_terminator(' ').map(str::to_owned).collect())
    }

    /// Whether a set of a locale's exemplar characters has a text: a character, or several that go together (UTS #35 Part 2,
    /// Character Elements).
    ///
    /// # Errors
    ///
    /// `Table` where the tables have no such set in that locale, `Memory`, or `Preferences` where it is no identifier without
    /// variants.
    ///
    /// ```
    /// use icu_locale_calls::{ExemplarSet, Refusal, Tables, EXAMPLE};
    /// let tables = Tables::from_json(EXAMPLE.as_bytes())?;
    /// assert_eq!(tables.has_exemplar(ExemplarSet::Main, "en", "ng"), Ok(true));
    /// assert_eq!(tables.has_exemplar(ExemplarSet::Main, "en", "A"), Ok(false));
    /// assert_eq!(tables.has_exemplar(ExemplarSet::Index, "en", "A"), Err(Refusal::Table { member: "exemplars" }));
    /// # Ok::<(), Refusal>(())
    /// ```
    pub fn has_exemplar(&self, set: ExemplarSet, locale: &str, text: &str) -> Result<bool, Refusal> {
        let told = self.answer(&format!("exemplars {} {locale}", set.as_str()), text.as_bytes());
        told.map(|it| it == YES).map_err(Refusal::of_preferences)
    }

    /// What the data calls itself, as `41` for that of CLDR 41; None where it has no name.
    ///
    /// # Errors
    ///
    /// `Memory`.
    ///
    /// ```
    /// use icu_locale_calls::{Tables, EXAMPLE};
    /// let tables = Tables::from_json_with(EXAMPLE.as_bytes(), br#"{"cldr":"41"}"#)?;
    /// assert_eq!(tables.data_name()?.as_deref(), Some("41"));
    /// # Ok::<(), icu_locale_calls::Refusal>(())
    /// ```
    pub fn data_name(&self) -> Result<Option<String>, Refusal> {
        self.pool.data_name()
    }
}

//! Likely subtags, canonical forms, directions, names and negotiation of locale identifiers, by the proved library. It
//! has no dependencies.
//!
//! ```
//! use icu_locale_calls::{Refusal, Tables, EXAMPLE};
//!
//! let tables = Tables::from_json(EXAMPLE.as_bytes())?;
//! assert_eq!(tables.maximize("zh-TW")?, "zh-Hant-TW");
//! assert_eq!(tables.minimize("zh-Hant-TW")?, "zh-TW");
//! assert_eq!(tables.canonicalize("sh")?, "sr-Latn");
//! assert_eq!(tables.name("it-US", "en")?, "Italian (United States)");
//! assert_eq!(tables.maximize("en-"), Err(Refusal::InvalidSubtag));
//! # Ok::<(), Refusal>(())
//! ```
//!
//! What is served to a reader who wants some languages, the most wanted first:
//!
//! ```
//! use icu_locale_calls::{Match, Tables, EXAMPLE};
//!
//! let tables = Tables::from_json(EXAMPLE.as_bytes())?;
//! let negotiator = tables.negotiator(["en-US", "zh-Hant", "yue-CN"])?;
//! let met = negotiator.negotiate(["fr", "zh_TW", "en"])?;
//! assert_eq!(met, Some(Match { request: 1, available: 1 }));
//! assert_eq!(negotiator.available()[1], "zh-Hant");
//! assert_eq!(negotiator.negotiate(["fr"])?, None);
//! # Ok::<(), icu_locale_calls::Refusal>(())
//! ```
//!
//! What is served to a reader whose browser sends the header Accept-Language, by the match rules of a supplement:
//!
//! ```
//! use icu_locale_calls::{Tables, EXAMPLE, EXAMPLE_SUPPLEMENT};
//!
//! let tables = Tables::from_json_with(EXAMPLE.as_bytes(), EXAMPLE_SUPPLEMENT.as_bytes())?;
//! assert_eq!(tables.serve(["fr, zh-TW;q=0.5"], ["en", "zh_hant"])?, Some("zh_hant"));
//! # Ok::<(), icu_locale_calls::Refusal>(())
//! ```
//!
//! `Tables::cldr` opens CLDR's data, which the crate has inside, and `Tables::from_json` reads tables of a text.
#![warn(missing_docs)]

mod answers;
mod calls;
mod codes;
mod data;
mod headers;
pub mod icu_locale;
mod inflate;
mod locale;
mod menu;
mod names;
mod negotiator;
mod options;
mod place;
mod pool;
mod refusal;
mod switcher;
mod tables;
#[cfg(feature = "serde")]
mod texts;

pub use codes::{CodeStatus, ExemplarSet, Invalid, PartKind, RegionChain, ScriptChain, SubtagKind};
pub use headers::Headers;
pub use locale::Locale;
pub use menu::MenuRow;
pub use names::{Chain, Name};
pub use negotiator::{Match, Negotiator};
pub use options::MatchOptions;
pub use place::fault;
pub use refusal::Refusal;
pub use switcher::{Resolved, Switcher};
pub use tables::Tables;

/// Small tables, as the examples ask them.
pub const EXAMPLE: &str = include_str!("../example.json");

/// A supplement of these tables: parents, match rules and aliases of values.
pub const EXAMPLE_SUPPLEMENT: &str = include_str!("../example-supplement.json");

/// The version of CLDR whose data this crate has inside, as `41`; None where it has none or CLDR does not tell it.
pub const fn cldr_version() -> Option<&'static str> {
    data::VERSION
}

/// The locales that CLDR has names in, by which `Tables::cldr` opens them, in the order of their texts.
///
/// ```
/// use icu_locale_calls::{cldr_locales, cldr_version};
/// assert_eq!(cldr_locales().contains(&"zh-Hant"), cldr_version().is_some());
/// ```
pub const fn cldr_locales() -> &'static [&'static str] {
    data::LOCALES
}

/// Which way a script runs.
#[derive(Clone, Copy, Debug, PartialEq, Eq, Hash)]
pub enum Direction {
    /// From left to right.
    LeftToRight,
    /// From right to left.
    RightToLeft,
}

/// How a text is read.
#[derive(Clone, Copy, Debug, Default, PartialEq, Eq, Hash)]
pub enum Syntax {
    /// A locale identifier of UTS #35, with its extensions.
    #[default]
    Locales,
    /// The same, or a tag of RFC 5646: an old tag, an extended language, private use alone; or `root` of CLDR, which is `und`.
    Bcp47,
    /// A locale identifier, or a name of a POSIX locale; or `root`.
    Posix,
}

impl Syntax {
    fn word(self) -> &'static str {
        match self {
            Syntax::Locales => "locales",
            Syntax::Bcp47 => "bcp47",
            Syntax::Posix => "posix",
        }
    }
}


//! Why there is no answer.
use std::fmt;

/// Why a call gives no answer.
#[derive(Clone, Copy, Debug, PartialEq, Eq, Hash)]
#[non_exhaustive]
pub enum Refusal {
    /// Memory was asked for and refused.
    Memory,
    /// The text is no JSON.
    Json,
    /// The JSON has not the shape of tables; the bytes that are lent are no names in the flat form; or names have none.
    Shape,
    /// No command has these words.
    Command,
    /// The tables leave out a member that is needed.
    Table {
        /// Its name: `likely_language`, `likely_script_region`, `aliases`, `direction`, `exemplars` of a set and a locale, or
        /// `matching` or `validity`, which a supplement has.
        member: &'static str,
    },
    /// The command is `negotiate`, `serve`, `nearest` or `resolved`, and there is no list of what is available: a `Negotiator`
    /// and a `Switcher` have one.
    Negotiate,
    /// The list has something that is no identifier.
    List,
    /// The likely tables are not settled, which `negotiate` asks.
    Unsettled,
    /// Other handles have the tables too.
    Shared,
    /// The line does not begin with a language.
    InvalidLanguage,
    /// A subtag of the line is none, or is where it may not be.
    InvalidSubtag,
    /// The bytes that are asked for among exemplar characters are no text of UTF-8.
    InvalidText,
    /// The rules of canonicalization come to no end.
    NoFixedPoint,
    /// The rows of subdivisions come to no end.
    NoSubdivisionFixedPoint,
    /// The aliases of the values at a key of the extension `u` come to no end.
    NoValueFixedPoint,
    /// The aliases of the values at a key of the extension `t` come to no end.
    NoFieldFixedPoint,
    /// The explicit parents after a locale lead round in a circle.
    Circle,
    /// The tables hold no pattern of names in the language of the preferences.
    NameMissing,
    /// CLDR has no names for a locale of a list.
    NoLocale {
        /// Its place, counted from 0.
        place: usize,
    },
    /// The crate was made without CLDR's data.
    NoData,
    /// A file of CLDR's data inside is damaged.
    Damaged {
        /// Its name, without `.gz`.
        file: &'static str,
    },
    /// The preferences of a name are no identifier without variants.
    Preferences,
}

// The members that tables and a supplement may leave out, of which a command needs one.
const MEMBERS: [&str; 7] =
    ["likely_language", "likely_script_region", "aliases", "direction", "exemplars", "matching", "validity"];

impl Refusal {
    pub(crate) fn of_number(number: i32) -> Self {
        match number {
            4 => Refusal::Memory,
            5 => Refusal::Json,
            6 => Refusal::Shape,
            7 => Refusal::Command,
            9 => Refusal::Negotiate,
            10 => Refusal::List,
            11 => Refusal::Unsettled,
            12 => Refusal::Shared,
            _ => unreachable!("the number {number} is that of no refusal of an open handle"),
        }
    }

    // That of a member that is left out.
    pub(crate) fn of_member(name: &[u8]) -> Self {
        let member = MEMBERS.into_iter().find(|it| it.as_bytes() == name);
        Refusal::Table { member: member.expect("the library names a member of tables or of a supplement") }
    }

    // That of a command whose words are those that there are, but for the preferences.
    pub(crate) fn of_preferences(self) -> Self {
        if self == Refusal::Command { Refusal::Preferences } else { self }
    }

    pub(crate) fn of_name(name: &str) -> Self {
        match name {
            "InvalidLanguage" => Refusal::InvalidLanguage,
            "InvalidSubtag" => Refusal::InvalidSubtag,
            "InvalidText" => Refusal::InvalidText,
            "NoFixedPoint" => Refusal::NoFixedPoint,
            "NoSubdivisionFixedPoint" => Refusal::NoSubdivisionFixedPoint,
            "NoValueFixedPoint" => Refusal::NoValueFixedPoint,
            "NoFieldFixedPoint" => Refusal::NoFieldFixedPoint,
            "Circle" => Refusal::Circle,
            _ => Refusal::NameMissing,
        }
    }
}

impl fmt::Display for Refusal {
    fn fmt(&self, f: &mut fmt::Formatter<'_>) -> fmt::Result {
        f.write_str(match self {
            Refusal::NoLocale { place } => return write!(f, "CLDR has no names for the locale at place {place} of the list"),
            Refusal::Table { member: member @ "exemplars" } => {
                return write!(f, "the tables leave out `{member}` of that set and locale, which is needed")
            }
            Refusal::Table { member: member @ ("matching" | "validity") } => {
                return write!(f, "the tables leave out `{member}`, which is needed: a supplement has it")
            }
            Refusal::Table { member } => return write!(f, "the tables leave out `{member}`, which is needed"),
            Refusal::Damaged { file } => return write!(f, "the file {file}.gz of CLDR's data inside is damaged"),
            Refusal::Preferences => "the preferences are no identifier without variants",
            Refusal::NoData => "this crate was made without CLDR's data; `from_json` takes tables of it",
            Refusal::Memory => "no memory",
            Refusal::Json => "the text is no JSON",
            Refusal::Shape => "the JSON has not the shape of tables, or the bytes have not that of names in the flat form",
            Refusal::Command => "no command has these words",
            Refusal::Negotiate => "there is no list of what is available",
            Refusal::List => "the list has something that is no identifier",
            Refusal::Unsettled => "the likely tables are not settled",
            Refusal::Shared => "other handles have the tables too",
            Refusal::InvalidLanguage => "the line does not begin with a language",
            Refusal::InvalidSubtag => "a subtag is none, or stands where it may not",
            Refusal::InvalidText => "the bytes are no text of UTF-8",
            Refusal::NoFixedPoint => "the rules come to no end",
            Refusal::NoSubdivisionFixedPoint => "the rows of subdivisions come to no end",
            Refusal::NoValueFixedPoint => "the aliases of values at a key of `u` come to no end",
            Refusal::NoFieldFixedPoint => "the aliases of values at a key of `t` come to no end",
            Refusal::Circle => "the parents lead round in a circle",
            Refusal::NameMissing => "there is no pattern of names in that language",
        })
    }
}

impl std::error::Error for Refusal {}

//! Names, and which kinds of them are asked.
use crate::Refusal;
use std::fmt;

/// Which kinds of names are asked, in order: docs/PROGRAM.md of the repository tells them.
#[derive(Clone, Copy, Debug, Default, PartialEq, Eq, Hash)]
pub enum Chain {
    /// The names that are wanted most.
    Tiny,
    /// Its own before these.
    #[default]
    Light,
    /// Those of rare languages and scripts before both.
    Heavy,
    /// Short names first.
    ShortLight,
    /// The same.
    ShortHeavy,
    /// Long names first.
    LongLight,
    /// The same.
    LongHeavy,
    /// Names of a sorted menu first.
    MenuLight,
    /// The same.
    MenuHeavy,
    /// Short names of a sorted menu first.
    ShortMenuLight,
    /// The same.
    ShortMenuHeavy,
}

impl Chain {
    pub(crate) fn word(self) -> &'static str {
        match self {
            Chain::Tiny => "tiny",
            Chain::Light => "light",
            Chain::Heavy => "heavy",
            Chain::ShortLight => "short-light",
            Chain::ShortHeavy => "short-heavy",
            Chain::LongLight => "long-light",
            Chain::LongHeavy => "long-heavy",
            Chain::MenuLight => "menu-light",
            Chain::MenuHeavy => "menu-heavy",
            Chain::ShortMenuLight => "short-menu-light",
            Chain::ShortMenuHeavy => "short-menu-heavy",
        }
    }
}

/// A name, by `Tables::name_in`, or of a code alone.
#[derive(Clone, Debug, PartialEq, Eq, Hash)]
pub struct Name {
    /// The name.
    pub text: String,
    /// Whether a part of it has no name, and is a subtag.
    pub is_raw: bool,
}

impl Name {
    // The name of an answer, with its mark.
    pub(crate) fn told(told: Result<String, Refusal>) -> Result<Self, Refusal> {
        let told = told.map_err(Refusal::of_preferences)?;
        let is_raw = told.ends_with("\tR");
        Ok(Name { text: before_mark(told), is_raw })
    }
}

/// What is before the mark of an answer.
pub(crate) fn before_mark(mut answer: String) -> String {
    answer.truncate(answer.rfind('\t').unwrap_or(answer.len()));
    answer
}

impl fmt::Display for Name {
    fn fmt(&self, to: &mut fmt::Formatter<'_>) -> fmt::Result {
        to.pad(&self.text)
    }
}

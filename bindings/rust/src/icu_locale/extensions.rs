//! The extensions of a locale.
use super::LanguageIdentifier;
use std::collections::BTreeMap;
use std::fmt;

/// The extensions of a locale. Keys and values are as the library has told them, or must be such as it reads.
#[derive(Clone, Debug, Default, PartialEq, Eq, PartialOrd, Ord, Hash)]
pub struct Extensions {
    /// The extension `u`.
    pub unicode: Unicode,
    /// The extension `t`.
    pub transform: Transform,
    /// What is behind `x`, piece by piece.
    pub private: Vec<String>,
    /// The others, by their letters.
    pub other: BTreeMap<String, String>,
}

/// The extension `u`.
#[derive(Clone, Debug, Default, PartialEq, Eq, PartialOrd, Ord, Hash)]
pub struct Unicode {
    /// Its attributes.
    pub attributes: Vec<String>,
    /// Its values by their keys. The value `true` is empty.
    pub keywords: BTreeMap<String, String>,
}

/// The extension `t`.
#[derive(Clone, Debug, Default, PartialEq, Eq, PartialOrd, Ord, Hash)]
pub struct Transform {
    /// Its language.
    pub lang: Option<LanguageIdentifier>,
    /// Its values by their keys.
    pub fields: BTreeMap<String, String>,
}

impl Extensions {
    /// None.
    #[must_use]
    pub const fn new() -> Self {
        Extensions {
            unicode: Unicode { attributes: Vec::new(), keywords: BTreeMap::new() },
            transform: Transform { lang: None, fields: BTreeMap::new() },
            private: Vec::new(),
            other: BTreeMap::new(),
        }
    }

    /// Whether there is none.
    #[must_use]
    pub fn is_empty(&self) -> bool {
        *self == Extensions::new()
    }

    pub(super) fn told(parts: &crate::Locale) -> Self {
        let language = |text: &str| LanguageIdentifier::try_from_str(text).expect("the language of `t` is an identifier");
        Extensions {
            unicode: Unicode {
                attributes: parts.attributes().to_vec(),
                keywords: parts.keywords().iter().cloned().collect(),
            },
            transform: Transform {
                lang: parts.transform_language().map(language),
                fields: parts.fields().iter().cloned().collect(),
            },
            private: parts.private_use().into_iter().flat_map(|it| it.split('-')).map(str::to_owned).collect(),
            other: parts.extensions().iter().cloned().collect(),
        }
    }
}

fn rows(rows: &BTreeMap<String, String>) -> impl Iterator<Item = String> + '_ {
    rows.iter().map(|(key, value)| if value.is_empty() { key.clone() } else { format!("{key}-{value}") })
}

// With a dash before each, in the order of their letters.
impl fmt::Display for Extensions {
    fn fmt(&self, to: &mut fmt::Formatter<'_>) -> fmt::Result {
        let mut all: BTreeMap<&str, String> = self.other.iter().map(|(key, value)| (key.as_str(), value.clone())).collect();
        let Transform { lang, fields } = &self.transform;
        let transform: Vec<String> = lang.iter().map(|it| it.to_string().to_lowercase()).chain(rows(fields)).collect();
        let unicode: Vec<String> = self.unicode.attributes.iter().cloned().chain(rows(&self.unicode.keywords)).collect();
        for (letter, pieces) in [("t", transform), ("u", unicode)] {
            if !pieces.is_empty() {
                all.insert(letter, pieces.join("-"));
            }
        }
        all.iter().try_for_each(|(letter, value)| write!(to, "-{letter}-{value}"))?;
        if self.private.is_empty() { Ok(()) } else { write!(to, "-x-{}", self.private.join("-")) }
    }
}

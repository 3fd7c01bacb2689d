//! Locales and their parts as texts of serde: written as they are, and read as any text is.
use crate::icu_locale::subtags::{Language, Region, Script, Variant};
use crate::{icu_locale, Locale};
use serde::de::{Error, Visitor};
use serde::{Deserialize, Deserializer, Serialize, Serializer};
use std::fmt;
use std::marker::PhantomData;

struct Text<T>(PhantomData<T>);

impl<T> Visitor<'_> for Text<T>
where
    T: std::str::FromStr,
    T::Err: fmt::Display,
{
    type Value = T;

    fn expecting(&self, to: &mut fmt::Formatter<'_>) -> fmt::Result {
        to.write_str("the text of a locale, or of a part of one")
    }

    fn visit_str<E: Error>(self, text: &str) -> Result<T, E> {
        text.parse().map_err(|fault| E::custom(format_args!("{text:?}: {fault}")))
    }
}

macro_rules! texts {
    ($($name:ty),*) => {$(
        impl Serialize for $name {
            fn serialize<S: Serializer>(&self, to: S) -> Result<S::Ok, S::Error> {
                to.collect_str(self)
            }
        }

        impl<'de> Deserialize<'de> for $name {
            fn deserialize<D: Deserializer<'de>>(from: D) -> Result<Self, D::Error> {
                from.deserialize_str(Text(PhantomData))
            }
        }
    )*};
}

texts!(Locale, icu_locale::Locale, icu_locale::LanguageIdentifier, Language, Script, Region, Variant);

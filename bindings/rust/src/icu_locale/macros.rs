//! What a program writes as a text. Each panics where the text is none.

/// A `Locale` of a text.
#[doc(hidden)]
#[macro_export]
macro_rules! __locale {
    ($text:literal) => {
        $crate::icu_locale::Locale::try_from_str($text).expect($text)
    };
}

/// A `LanguageIdentifier` of a text.
#[doc(hidden)]
#[macro_export]
macro_rules! __langid {
    ($text:literal) => {
        $crate::icu_locale::LanguageIdentifier::try_from_str($text).expect($text)
    };
}

/// A `Language` of a text.
#[doc(hidden)]
#[macro_export]
macro_rules! __language {
    ($text:literal) => {
        $crate::icu_locale::subtags::Language::try_from_str($text).expect($text)
    };
}

/// A `Script` of a text.
#[doc(hidden)]
#[macro_export]
macro_rules! __script {
    ($text:literal) => {
        $crate::icu_locale::subtags::Script::try_from_str($text).expect($text)
    };
}

/// A `Region` of a text.
#[doc(hidden)]
#[macro_export]
macro_rules! __region {
    ($text:literal) => {
        $crate::icu_locale::subtags::Region::try_from_str($text).expect($text)
    };
}

/// A `Variant` of a text.
#[doc(hidden)]
#[macro_export]
macro_rules! __variant {
    ($text:literal) => {
        $crate::icu_locale::subtags::Variant::try_from_str($text).expect($text)
    };
}

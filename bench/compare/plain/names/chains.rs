//! Kinds of names, and the chains of them that names are asked for by.

/// A kind of names, in the order of the words.
#[derive(Clone, Copy, Debug, PartialEq, Eq, PartialOrd, Ord)]
pub enum Kind {
    LanguageLongHeavy,
    LanguageLongLight,
    LanguageMediumHeavy,
    LanguageMediumLight,
    LanguageMediumTiny,
    LanguageShortHeavy,
    LanguageShortLight,
    RegionMediumLight,
    RegionMediumTiny,
    RegionShortLight,
    RegionShortTiny,
    ScriptMediumHeavy,
    ScriptMediumLight,
    ScriptMediumTiny,
    ScriptShortHeavy,
    VariantMediumHeavy,
}

/// A kind of names in menus.
#[derive(Clone, Copy, Debug, PartialEq, Eq, PartialOrd, Ord)]
pub enum MenuKind {
    Heavy,
    Light,
}

/// A kind that tables name by a word.
pub trait Named: Copy + Ord {
    fn named(word: &str) -> Option<Self>;
}

impl Named for Kind {
    fn named(word: &str) -> Option<Kind> {
        Some(match word {
            "language/long/heavy" => Kind::LanguageLongHeavy,
            "language/long/light" => Kind::LanguageLongLight,
            "language/medium/heavy" => Kind::LanguageMediumHeavy,
            "language/medium/light" => Kind::LanguageMediumLight,
            "language/medium/tiny" => Kind::LanguageMediumTiny,
            "language/short/heavy" => Kind::LanguageShortHeavy,
            "language/short/light" => Kind::LanguageShortLight,
            "region/medium/light" => Kind::RegionMediumLight,
            "region/medium/tiny" => Kind::RegionMediumTiny,
            "region/short/light" => Kind::RegionShortLight,
            "region/short/tiny" => Kind::RegionShortTiny,
            "script/medium/heavy" => Kind::ScriptMediumHeavy,
            "script/medium/light" => Kind::ScriptMediumLight,
            "script/medium/tiny" => Kind::ScriptMediumTiny,
            "script/short/heavy" => Kind::ScriptShortHeavy,
            "variant/medium/heavy" => Kind::VariantMediumHeavy,
            _ => return None,
        })
    }
}

impl Named for MenuKind {
    fn named(word: &str) -> Option<MenuKind> {
        match word {
            "language/menu/medium/heavy" => Some(MenuKind::Heavy),
            "language/menu/medium/light" => Some(MenuKind::Light),
            _ => None,
        }
    }
}

/// The kinds of names that a chain asks for, in order.
pub struct Chain {
    pub menus: &'static [MenuKind],
    pub languages: &'static [Kind],
    pub scripts: &'static [Kind],
    pub regions: &'static [Kind],
}

const NO_MENUS: &[MenuKind] = &[];
const LIGHT_MENUS: &[MenuKind] = &[MenuKind::Light];
const HEAVY_MENUS: &[MenuKind] = &[MenuKind::Heavy, MenuKind::Light];

const TINY: &[Kind] = &[Kind::LanguageMediumTiny];
const LIGHT: &[Kind] = &[Kind::LanguageMediumLight, Kind::LanguageMediumTiny];
const SHORT_LIGHT: &[Kind] = &[Kind::LanguageShortLight, Kind::LanguageMediumLight, Kind::LanguageMediumTiny];
const LONG_LIGHT: &[Kind] = &[Kind::LanguageLongLight, Kind::LanguageMediumLight, Kind::LanguageMediumTiny];
const HEAVY: &[Kind] = &[Kind::LanguageMediumHeavy, Kind::LanguageMediumLight, Kind::LanguageMediumTiny];
const SHORT_HEAVY: &[Kind] = &[
    Kind::LanguageShortHeavy,
    Kind::LanguageShortLight,
    Kind::LanguageMediumHeavy,
    Kind::LanguageMediumLight,
    Kind::LanguageMediumTiny,
];
const LONG_HEAVY: &[Kind] = &[
    Kind::LanguageLongHeavy,
    Kind::LanguageLongLight,
    Kind::LanguageMediumHeavy,
    Kind::LanguageMediumLight,
    Kind::LanguageMediumTiny,
];

const TINY_SCRIPTS: &[Kind] = &[Kind::ScriptMediumTiny];
const LIGHT_SCRIPTS: &[Kind] = &[Kind::ScriptMediumLight, Kind::ScriptMediumTiny];
const HEAVY_SCRIPTS: &[Kind] = &[Kind::ScriptMediumHeavy, Kind::ScriptMediumLight, Kind::ScriptMediumTiny];
const SHORT_HEAVY_SCRIPTS: &[Kind] =
    &[Kind::ScriptShortHeavy, Kind::ScriptMediumHeavy, Kind::ScriptMediumLight, Kind::ScriptMediumTiny];

const TINY_REGIONS: &[Kind] = &[Kind::RegionMediumTiny];
const LIGHT_REGIONS: &[Kind] = &[Kind::RegionMediumLight, Kind::RegionMediumTiny];
const SHORT_REGIONS: &[Kind] =
    &[Kind::RegionShortLight, Kind::RegionShortTiny, Kind::RegionMediumLight, Kind::RegionMediumTiny];

pub const VARIANTS: &[Kind] = &[Kind::VariantMediumHeavy];

/// The chain of a word.
pub fn chain(word: &str) -> Option<Chain> {
    let (menus, languages, scripts, regions) = match word {
        "tiny" => (NO_MENUS, TINY, TINY_SCRIPTS, TINY_REGIONS),
        "light" => (NO_MENUS, LIGHT, LIGHT_SCRIPTS, LIGHT_REGIONS),
        "short-light" => (NO_MENUS, SHORT_LIGHT, LIGHT_SCRIPTS, SHORT_REGIONS),
        "long-light" => (NO_MENUS, LONG_LIGHT, LIGHT_SCRIPTS, LIGHT_REGIONS),
        "menu-light" => (LIGHT_MENUS, LIGHT, LIGHT_SCRIPTS, LIGHT_REGIONS),
        "short-menu-light" => (LIGHT_MENUS, SHORT_LIGHT, LIGHT_SCRIPTS, SHORT_REGIONS),
        "heavy" => (NO_MENUS, HEAVY, HEAVY_SCRIPTS, LIGHT_REGIONS),
        "short-heavy" => (NO_MENUS, SHORT_HEAVY, SHORT_HEAVY_SCRIPTS, SHORT_REGIONS),
        "long-heavy" => (NO_MENUS, LONG_HEAVY, HEAVY_SCRIPTS, LIGHT_REGIONS),
        "menu-heavy" => (HEAVY_MENUS, HEAVY, HEAVY_SCRIPTS, LIGHT_REGIONS),
        "short-menu-heavy" => (HEAVY_MENUS, SHORT_HEAVY, SHORT_HEAVY_SCRIPTS, SHORT_REGIONS),
        _ => return None,
    };
    Some(Chain { menus, languages, scripts, regions })
}

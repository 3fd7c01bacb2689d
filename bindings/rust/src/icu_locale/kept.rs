//! Tables of CLDR's data inside, opened where they are first asked, and kept.
use crate::{Refusal, Tables};
use std::collections::BTreeMap;
use std::sync::{Mutex, OnceLock, PoisonError};

/// Which names tables have.
#[derive(Clone, Copy, PartialEq, Eq, PartialOrd, Ord)]
pub enum Names {
    /// Those of whole identifiers.
    Whole,
    /// The same but for those of dialects.
    Standard,
    /// Those of scripts, regions and variants alone.
    Parts,
}

/// Those without names.
pub fn tables() -> &'static Tables {
    static TABLES: OnceLock<Tables> = OnceLock::new();
    TABLES.get_or_init(|| Tables::cldr(&[]).unwrap_or_else(|refusal| panic!("{refusal}")))
}

/// Those with the names of a locale that CLDR has.
pub fn named(locale: &'static str, names: Names) -> Result<&'static Tables, Refusal> {
    static NAMED: Mutex<BTreeMap<(&str, Names), &'static Tables>> = Mutex::new(BTreeMap::new());
    let mut kept = NAMED.lock().unwrap_or_else(PoisonError::into_inner);
    if let Some(tables) = kept.get(&(locale, names)) {
        return Ok(tables);
    }
    let tables = match names {
        Names::Whole => Tables::cldr(&[locale])?,
        Names::Standard => Tables::cldr_standard(locale)?,
        Names::Parts => Tables::cldr_parts(locale)?,
    };
    let tables: &'static Tables = Box::leak(Box::new(tables));
    kept.insert((locale, names), tables);
    Ok(tables)
}

//! Likely subtags: maximal and minimal forms, and whether tables are settled.
use crate::json::Value;
use crate::rows::{self, Fault, Shaped, SortedMap, key, key_pair, map_of, members, pair};
use crate::subtags::{self, Base, Language, Region, Script};
use crate::subtags::{UNKNOWN_LANGUAGE, UNKNOWN_REGION, UNKNOWN_SCRIPT};

/// One map for each kind of key.
pub struct Likely {
    language: SortedMap<Language, (Script, Region)>,
    language_script: SortedMap<(Language, Script), Region>,
    language_region: SortedMap<(Language, Region), Script>,
    script_region: SortedMap<(Script, Region), Language>,
    script: SortedMap<Script, (Language, Region)>,
    region: SortedMap<Region, (Language, Script)>,
}

/// Which of two short forms comes first.
#[derive(Clone, Copy)]
pub enum Favor {
    Region,
    Script,
}

impl Likely {
    fn new() -> Likely {
        Likely {
            language: SortedMap::new(),
            language_script: SortedMap::new(),
            language_region: SortedMap::new(),
            script_region: SortedMap::new(),
            script: SortedMap::new(),
            region: SortedMap::new(),
        }
    }

    /// The rows that the triple of `und` serves as.
    fn of_triple((language, script, region): (Language, Script, Region)) -> Likely {
        Likely {
            script_region: SortedMap::from_rows(vec![((script, region), language)]),
            script: SortedMap::from_rows(vec![(script, (language, region))]),
            region: SortedMap::from_rows(vec![(region, (language, script))]),
            ..Likely::new()
        }
    }

    fn take_member(&mut self, name: &str, value: Value) -> Shaped<()> {
        let (language, script, region) = (subtags::language, subtags::script, subtags::region);
        match name {
            "language" => {
                self.language = map_of(value, key(language), pair(rows::script, rows::region))?;
            }
            "language_script" => {
                self.language_script = map_of(value, key_pair(language, script), rows::region)?;
            }
            "language_region" => {
                self.language_region = map_of(value, key_pair(language, region), rows::script)?;
            }
            "script_region" => {
                self.script_region = map_of(value, key_pair(script, region), rows::language)?;
            }
            "script" => {
                self.script = map_of(value, key(script), pair(rows::language, rows::region))?;
            }
            "region" => {
                self.region = map_of(value, key(region), pair(rows::language, rows::script))?;
            }
            _ => return Err(Fault::Shape),
        }
        Ok(())
    }

    pub fn from_value(value: Value) -> Shaped<Likely> {
        let mut likely = Likely::new();
        for (name, value) in members(value)? {
            likely.take_member(&name, value)?;
        }
        Ok(likely)
    }

    /// The table by language, whose triple of `und` serves last.
    pub fn with_triple(value: Value) -> Shaped<(Likely, Likely)> {
        let mut likely = Likely::new();
        let mut triple = None;
        for (name, value) in members(value)? {
            if name == "und" {
                let [language, script, region] = rows::array(value)?;
                let read = (rows::language(language)?, rows::script(script)?, rows::region(region)?);
                triple = Some(Likely::of_triple(read));
            } else {
                likely.take_member(&name, value)?;
            }
        }
        Ok((likely, triple.ok_or(Fault::Shape)?))
    }

    /// Rows of this table cover those of the other one.
    pub fn covering(self, other: Likely) -> Likely {
        Likely {
            language: self.language.covering(other.language),
            language_script: self.language_script.covering(other.language_script),
            language_region: self.language_region.covering(other.language_region),
            script_region: self.script_region.covering(other.script_region),
            script: self.script.covering(other.script),
            region: self.region.covering(other.region),
        }
    }

    /// The language, script and region of the first row whose key a bare identifier has.
    fn row(&self, bare: &Base) -> Option<(Language, Script, Region)> {
        if bare.language == UNKNOWN_LANGUAGE {
            self.row_of_unknown(bare.script, bare.region)
        } else {
            self.row_of_language(bare.language, bare.script, bare.region)
        }
    }

    fn row_of_language(
        &self,
        language: Language,
        script: Option<Script>,
        region: Option<Region>,
    ) -> Option<(Language, Script, Region)> {
        if let Some(region) = region {
            if let Some(script) = self.language_region.get(&(language, region)) {
                return Some((language, *script, region));
            }
        }
        if let Some(script) = script {
            if let Some(region) = self.language_script.get(&(language, script)) {
                return Some((language, script, *region));
            }
        }
        let (script, region) = self.language.get(&language)?;
        Some((language, *script, *region))
    }

    fn row_of_unknown(
        &self,
        script: Option<Script>,
        region: Option<Region>,
    ) -> Option<(Language, Script, Region)> {
        if let (Some(script), Some(region)) = (script, region) {
            if let Some(language) = self.script_region.get(&(script, region)) {
                return Some((*language, script, region));
            }
        }
        if let Some(script) = script {
            if let Some((language, region)) = self.script.get(&script) {
                return Some((*language, script, *region));
            }
        }
        let region = region?;
        let (language, script) = self.region.get(&region)?;
        Some((*language, *script, region))
    }

    /// The maximal form, and whether a placeholder was removed or a subtag filled in.
    pub fn maximal(&self, base: &Base) -> (Base, bool) {
        let bare = Base {
            language: base.language,
            script: base.script.filter(|script| *script != UNKNOWN_SCRIPT),
            region: base.region.filter(|region| *region != UNKNOWN_REGION),
        };
        let is_full = bare.script.is_some() && bare.region.is_some();
        let removed = bare != *base;
        if is_full && bare.language != UNKNOWN_LANGUAGE {
            return (bare, removed);
        }
        let Some((language, script, region)) = self.row(&bare) else {
            return (bare, removed);
        };
        let is_known = bare.language != UNKNOWN_LANGUAGE;
        let filled = Base {
            language: if is_known { bare.language } else { language },
            script: bare.script.or(Some(script)),
            region: bare.region.or(Some(region)),
        };
        (filled, removed || filled != bare)
    }

    /// The shortest identifier with the language of the maximal form and the same maximal form.
    pub fn minimal(&self, base: &Base, favor: Favor) -> Base {
        let (full, _) = self.maximal(base);
        let alone = Base::of_language(full.language);
        let with_region = Base { region: full.region, ..alone };
        let with_script = Base { script: full.script, ..alone };
        let trials = match favor {
            Favor::Region => [alone, with_region, with_script],
            Favor::Script => [alone, with_script, with_region],
        };
        let found = trials.into_iter().find(|trial| self.maximal(trial).0 == full);
        found.unwrap_or(full)
    }

    pub fn likely_script(&self, base: &Base) -> Option<Script> {
        self.maximal(base).0.script
    }

    /// Whether each maximal form is its own maximal form and has no placeholder, told by the rows.
    pub fn is_settled(&self) -> bool {
        let placeholders = self.language.iter().any(|(language, (script, region))| {
            *language != UNKNOWN_LANGUAGE && (*script == UNKNOWN_SCRIPT || *region == UNKNOWN_REGION)
        }) || self.language_script.iter().any(|((language, script), region)| {
            is_asked(*language, *script, UNKNOWN_SCRIPT) && *region == UNKNOWN_REGION
        }) || self.language_region.iter().any(|((language, region), script)| {
            is_asked(*language, *region, UNKNOWN_REGION) && *script == UNKNOWN_SCRIPT
        }) || self.script.iter().any(|(script, (_, region))| {
            *script != UNKNOWN_SCRIPT && *region == UNKNOWN_REGION
        }) || self.region.iter().any(|(region, (_, script))| {
            *region != UNKNOWN_REGION && *script == UNKNOWN_SCRIPT
        });
        let leads_on = self.script.iter().any(|(script, (language, region))| {
            *script != UNKNOWN_SCRIPT && self.leads_on(*language, *script, *region)
        }) || self.region.iter().any(|(region, (language, script))| {
            *region != UNKNOWN_REGION && self.leads_on(*language, *script, *region)
        });
        !placeholders && !leads_on
    }

    /// Whether a row without a language gives a form that is maximized further.
    fn leads_on(&self, language: Language, script: Script, region: Region) -> bool {
        let form = Base { language, script: Some(script), region: Some(region) };
        language == UNKNOWN_LANGUAGE && self.maximal(&form).1
    }
}

/// Whether a key of a language and another subtag is ever looked up.
fn is_asked<const SIZE: usize>(language: Language, subtag: [u8; SIZE], unknown: [u8; SIZE]) -> bool {
    language != UNKNOWN_LANGUAGE && subtag != unknown
}

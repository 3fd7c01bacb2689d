//! Likely subtags: maximal and minimal forms.
use crate::json::Value;
use crate::packed::{Output, UNKNOWN_LANGUAGE, UNKNOWN_REGION, UNKNOWN_SCRIPT, packed, pair};
use crate::rows::{Rows, member, pairs};

/// A language, and a script and a region, of which 0 is none.
#[derive(Clone, Copy, PartialEq)]
pub struct Base {
    pub language: u32,
    pub script: u32,
    pub region: u32,
}

impl Base {
    #[inline(always)]
    pub fn write(self, output: &mut Output) {
        output.put(self.language);
        for subtag in [self.script, self.region] {
            if subtag != 0 {
                output.put_text(b"-");
                output.put(subtag);
            }
        }
    }
}

pub struct Likely {
    language: Rows,
    language_script: Rows,
    language_region: Rows,
    script_region: Rows,
    script: Rows,
    region: Rows,
}

/// A value of two subtags.
fn parts(value: u64) -> (u32, u32) {
    ((value >> 32) as u32, value as u32)
}

impl Likely {
    /// The likely subtags of tables: of two rows with one key the first counts, so that the triple of `und` serves last.
    pub fn from_tables(tables: &Value) -> Option<Likely> {
        let (by_language, by_script) = (member(tables, "likely_language")?, member(tables, "likely_script_region")?);
        let Value::List(und) = member(by_language, "und")? else { return None };
        let [Value::Text(language), Value::Text(script), Value::Text(region)] = &und[..] else { return None };
        let [language, script, region] = [language, script, region].map(|text| packed(text.as_bytes()));
        let rows = |table, name| Some(Rows::from_pairs(pairs(table, name)?));
        let served = |name, key, value| {
            let mut rows = pairs(by_script, name)?;
            rows.push((key, value));
            Some(Rows::from_pairs(rows))
        };
        Some(Likely {
            language: rows(by_language, "language")?,
            language_script: rows(by_language, "language_script")?,
            language_region: rows(by_language, "language_region")?,
            script_region: served("script_region", pair(script, region), u64::from(language))?,
            script: served("script", u64::from(script), pair(language, region))?,
            region: served("region", u64::from(region), pair(language, script))?,
        })
    }

    #[inline(always)]
    fn row_of_language(&self, Base { language, script, region }: Base) -> Option<Base> {
        if region != 0 {
            if let Some(script) = self.language_region.get(pair(language, region)) {
                return Some(Base { language, script: script as u32, region });
            }
        }
        if script != 0 {
            if let Some(region) = self.language_script.get(pair(language, script)) {
                return Some(Base { language, script, region: region as u32 });
            }
        }
        let (script, region) = parts(self.language.get(u64::from(language))?);
        Some(Base { language, script, region })
    }

    #[inline(always)]
    fn row_of_unknown(&self, Base { script, region, .. }: Base) -> Option<Base> {
        if script != 0 && region != 0 {
            if let Some(language) = self.script_region.get(pair(script, region)) {
                return Some(Base { language: language as u32, script, region });
            }
        }
        if script != 0 {
            if let Some(value) = self.script.get(u64::from(script)) {
                let (language, region) = parts(value);
                return Some(Base { language, script, region });
            }
        }
        let (language, script) = parts(self.region.get(u64::from(region))?);
        Some(Base { language, script, region })
    }

    /// The maximal form: placeholders are removed, and what is not there is filled in.
    #[inline(always)]
    pub fn maximal(&self, base: Base) -> Base {
        let script = if base.script == UNKNOWN_SCRIPT { 0 } else { base.script };
        let region = if base.region == UNKNOWN_REGION { 0 } else { base.region };
        let bare = Base { language: base.language, script, region };
        let is_known = bare.language != UNKNOWN_LANGUAGE;
        if is_known && script != 0 && region != 0 {
            return bare;
        }
        let row = if is_known { self.row_of_language(bare) } else { self.row_of_unknown(bare) };
        let Some(row) = row else { return bare };
        Base {
            language: row.language,
            script: if script != 0 { script } else { row.script },
            region: if region != 0 { region } else { row.region },
        }
    }

    /// The shortest form with the language of the maximal form and the same maximal form.
    #[inline(always)]
    pub fn minimal(&self, base: Base, script_first: bool) -> Base {
        let full = self.maximal(base);
        let alone = Base { script: 0, region: 0, ..full };
        let (with_region, with_script) = (Base { script: 0, ..full }, Base { region: 0, ..full });
        let (second, third) = if script_first { (with_script, with_region) } else { (with_region, with_script) };
        [alone, second, third].into_iter().find(|trial| self.maximal(*trial) == full).unwrap_or(full)
    }
}

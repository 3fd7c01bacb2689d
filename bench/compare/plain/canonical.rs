//! Canonical forms of identifiers and of the values at `rg`, by the rules of a table of aliases.
use crate::json::Value;
use crate::likely::Likely;
use crate::rows::{self, Fault, Shaped, SortedMap, key, list_of, map_of, members};
use crate::subtags::{self, Base, Identifier, Language, Refusal, Region, Script, Variant};
use crate::subtags::{UNKNOWN_LANGUAGE, is_separator};

struct Rule {
    source: Identifier,
    replacement: Identifier,
}

/// The rules that can be read.
pub struct Rules {
    language_variants: Vec<Rule>,
    language: Vec<Rule>,
    sign_region: SortedMap<Region, Language>,
    language_of_two: SortedMap<Language, Base>,
    language_of_three: SortedMap<Language, Base>,
    script: SortedMap<Script, Script>,
    region_of_letters: SortedMap<Region, Region>,
    region_of_digits: SortedMap<Region, Region>,
    complex_region: SortedMap<Region, Vec<Region>>,
    variant: SortedMap<Variant, Variant>,
    subdivision: SortedMap<[u8; 8], Vec<u8>>,
}

/// The value that a text reads as, its pieces joined by hyphens.
pub fn read_value(text: &[u8]) -> Option<Vec<u8>> {
    let mut value = Vec::new();
    if text.is_empty() {
        return Some(value);
    }
    for piece in text.split(is_separator) {
        let piece = subtags::value_piece(piece)?;
        if piece == *b"true\0\0\0\0" {
            continue;
        }
        if !value.is_empty() {
            value.push(b'-');
        }
        value.extend_from_slice(subtags::bytes(&piece));
    }
    Some(value)
}

fn rule([source, replacement]: [Value; 2]) -> Shaped<Option<Rule>> {
    let (source, replacement) = (rows::text(source)?, rows::text(replacement)?);
    let read = (Identifier::read(source.as_bytes()), Identifier::read(replacement.as_bytes()));
    match read {
        (Ok(source), Ok(replacement)) => Ok(Some(Rule { source, replacement })),
        _ => Ok(None),
    }
}

fn variant_rule([language, variants, replacement]: [Value; 3]) -> Shaped<Option<Rule>> {
    let (language, variants) = (rows::language(language)?, rows::text(variants)?);
    let replacement = rows::text(replacement)?;
    let lower = |piece: &[u8]| key(subtags::variant)(piece);
    let read: Option<Vec<Variant>> = variants.as_bytes().split(|byte| *byte == b'-').map(lower).collect();
    let (Some(mut variants), Ok(replacement)) = (read, Identifier::read(replacement.as_bytes())) else {
        return Ok(None);
    };
    variants.sort_unstable();
    variants.dedup();
    Ok(Some(Rule { source: Identifier { base: Base::of_language(language), variants }, replacement }))
}

fn rules<const SIZE: usize>(
    value: Value,
    read: fn([Value; SIZE]) -> Shaped<Option<Rule>>,
) -> Shaped<Vec<Rule>> {
    let rules = list_of(value, |value| read(rows::array(value)?))?;
    Ok(rules.into_iter().flatten().collect())
}

/// The rows of a map whose texts can be read.
fn readable<K: Ord + Copy, V>(
    value: Value,
    key: impl Fn(&[u8]) -> Option<K>,
    read: impl Fn(&[u8]) -> Option<V>,
) -> Shaped<SortedMap<K, V>> {
    let texts = map_of(value, key, rows::text)?;
    let read_row = |(key, text): &(K, String)| Some((*key, read(text.as_bytes())?));
    Ok(SortedMap::from_rows(texts.iter().filter_map(read_row).collect()))
}

impl Rules {
    fn new() -> Rules {
        Rules {
            language_variants: Vec::new(),
            language: Vec::new(),
            sign_region: SortedMap::new(),
            language_of_two: SortedMap::new(),
            language_of_three: SortedMap::new(),
            script: SortedMap::new(),
            region_of_letters: SortedMap::new(),
            region_of_digits: SortedMap::new(),
            complex_region: SortedMap::new(),
            variant: SortedMap::new(),
            subdivision: SortedMap::new(),
        }
    }

    pub fn from_value(value: Value) -> Shaped<Rules> {
        let mut rules = Rules::new();
        for (name, value) in members(value)? {
            rules.take_member(&name, value)?;
        }
        Ok(rules)
    }

    fn take_member(&mut self, name: &str, value: Value) -> Shaped<()> {
        let (language, region) = (key(subtags::language), key(subtags::region));
        let base = |text: &[u8]| Identifier::read(text).ok().map(|read| read.base);
        match name {
            "language_variants" => self.language_variants = rules(value, variant_rule)?,
            "language" => self.language = rules(value, rule)?,
            "sgn_region" => self.sign_region = map_of(value, region, rows::language)?,
            "language_len2" => self.language_of_two = readable(value, language, base)?,
            "language_len3" => self.language_of_three = readable(value, language, base)?,
            "script" => self.script = map_of(value, key(subtags::script), rows::script)?,
            "region_alpha" => self.region_of_letters = map_of(value, region, rows::region)?,
            "region_num" => self.region_of_digits = map_of(value, region, rows::region)?,
            "complex_region" => {
                self.complex_region = map_of(value, region, |list| list_of(list, rows::region))?;
            }
            "variant" => self.variant = map_of(value, key(subtags::variant), rows::variant)?,
            "subdivision" => {
                self.subdivision = readable(value, key(subtags::value_piece), read_value)?;
            }
            _ => return Err(Fault::Shape),
        }
        Ok(())
    }

    /// Brings an identifier to its canonical form, and answers whether a rule was applied.
    pub fn canonicalize(&self, likely: &Likely, identifier: &mut Identifier) -> Result<bool, Refusal> {
        let ends = reaches_end(identifier, |identifier| self.turn(likely, identifier));
        ends.ok_or(Refusal::NoFixedPoint)
    }

    /// Brings a value to its canonical form, and answers whether a row was applied.
    pub fn canonicalize_value(&self, value: &mut Vec<u8>) -> Result<bool, Refusal> {
        let ends = reaches_end(value, |value| self.turn_value(value));
        ends.ok_or(Refusal::NoSubdivisionFixedPoint)
    }

    fn turn_value(&self, value: &mut Vec<u8>) -> bool {
        let row = subtags::value_piece(value).and_then(|piece| self.subdivision.get(&piece));
        if let Some(row) = row {
            value.clone_from(row);
        }
        row.is_some()
    }

    /// Applies the first kind of rule that matches, and answers whether one did.
    fn turn(&self, likely: &Likely, identifier: &mut Identifier) -> bool {
        self.by_rule(identifier)
            || self.by_sign_region(&mut identifier.base)
            || self.by_language(&mut identifier.base)
            || self.by_script(&mut identifier.base)
            || self.by_region(&mut identifier.base)
            || self.by_complex_region(likely, &mut identifier.base)
            || self.by_variant(&mut identifier.variants)
    }

    fn by_rule(&self, identifier: &mut Identifier) -> bool {
        let plain = identifier.variants.is_empty();
        let rules = if plain { &self.language } else { &self.language_variants };
        let Some(rule) = rules.iter().find(|rule| rule.matches(identifier)) else {
            return false;
        };
        rule.apply(identifier);
        true
    }

    fn by_sign_region(&self, base: &mut Base) -> bool {
        if base.language != *b"sgn" {
            return false;
        }
        let Some(language) = base.region.and_then(|region| self.sign_region.get(&region)) else {
            return false;
        };
        base.language = *language;
        base.region = None;
        true
    }

    fn by_language(&self, base: &mut Base) -> bool {
        if base.language == UNKNOWN_LANGUAGE {
            return false;
        }
        let has_two = base.language[2] == 0;
        let map = if has_two { &self.language_of_two } else { &self.language_of_three };
        let Some(replacement) = map.get(&base.language) else {
            return false;
        };
        base.language = replacement.language;
        base.script = base.script.or(replacement.script);
        base.region = base.region.or(replacement.region);
        true
    }

    fn by_script(&self, base: &mut Base) -> bool {
        let script = base.script.and_then(|script| self.script.get(&script));
        base.script = script.copied().or(base.script);
        script.is_some()
    }

    fn by_region(&self, base: &mut Base) -> bool {
        let alias = |region: Region| {
            let has_letters = region[0].is_ascii_alphabetic();
            let map = if has_letters { &self.region_of_letters } else { &self.region_of_digits };
            map.get(&region)
        };
        let region = base.region.and_then(alias);
        base.region = region.copied().or(base.region);
        region.is_some()
    }

    fn by_complex_region(&self, likely: &Likely, base: &mut Base) -> bool {
        let regions = base.region.and_then(|region| self.complex_region.get(&region));
        let Some((regions, first)) = regions.and_then(|regions| Some((regions, *regions.first()?))) else {
            return false;
        };
        let (full, _) = likely.maximal(&Base { region: None, ..*base });
        let chosen = full.region.filter(|region| regions.contains(region));
        base.region = Some(chosen.unwrap_or(first));
        true
    }

    fn by_variant(&self, variants: &mut Vec<Variant>) -> bool {
        let mut found = false;
        for variant in variants.iter_mut() {
            if let Some(alias) = self.variant.get(variant) {
                *variant = *alias;
                found = true;
            }
        }
        if found {
            variants.sort_unstable();
            variants.dedup();
        }
        found
    }
}

impl Rule {
    fn matches(&self, identifier: &Identifier) -> bool {
        let (rule, base) = (&self.source.base, &identifier.base);
        (rule.language == base.language || rule.language == UNKNOWN_LANGUAGE)
            && (rule.script.is_none() || rule.script == base.script)
            && (rule.region.is_none() || rule.region == base.region)
            && self.source.variants.iter().all(|variant| identifier.variants.contains(variant))
    }

    fn apply(&self, identifier: &mut Identifier) {
        let (rule, replacement) = (&self.source.base, &self.replacement.base);
        let base = &mut identifier.base;
        let is_unknown = |language| language == UNKNOWN_LANGUAGE;
        let fills = is_unknown(base.language) && !is_unknown(replacement.language);
        if !is_unknown(rule.language) || fills {
            base.language = replacement.language;
        }
        if rule.script.is_some() || base.script.is_none() {
            base.script = replacement.script;
        }
        if rule.region.is_some() || base.region.is_none() {
            base.region = replacement.region;
        }
        if !self.source.variants.is_empty() || !self.replacement.variants.is_empty() {
            let variants = &mut identifier.variants;
            variants.retain(|variant| !self.source.variants.contains(variant));
            variants.extend_from_slice(&self.replacement.variants);
            variants.sort_unstable();
            variants.dedup();
        }
    }
}

/// Takes turns until there is no further one, and answers whether there was any, or nothing where they lead round.
/// What is met is compared with what was met some turns ago, after Brent.
fn reaches_end<T: Clone + PartialEq>(state: &mut T, turn: impl Fn(&mut T) -> bool) -> Option<bool> {
    if !turn(state) {
        return Some(false);
    }
    let mut kept = state.clone();
    let (mut turns, mut limit) = (0, 1);
    while turn(state) {
        if *state == kept {
            return None;
        }
        turns += 1;
        if turns == limit {
            kept.clone_from(state);
            (turns, limit) = (0, limit * 2);
        }
    }
    Some(true)
}

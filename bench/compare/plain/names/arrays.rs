//! An array for each kind of name that a chain asks for in the language of one locale, found once for all lines.
use super::chains::{Chain, Named, VARIANTS};
use super::{Essentials, Menu, NameTables, Source, essentials, menu};
use crate::json::Value;
use crate::rows::{self, Shaped, SortedMap, base_key, key, map_of};
use crate::subtags::{self, Base, Language, Region, Script, Variant};

/// The names of one locale, by kind.
pub struct Arrays {
    menus: Vec<SortedMap<Language, Menu>>,
    languages: Vec<SortedMap<Base, String>>,
    scripts: Vec<SortedMap<Script, String>>,
    regions: Vec<SortedMap<Region, String>>,
    variants: Vec<SortedMap<Variant, String>>,
    essentials: Option<Essentials>,
}

/// Takes from a table what is at each kind for a locale, and makes a map of it.
fn tables_of<N: Named, K: Ord, V>(
    table: &mut [(String, Value)],
    kinds: &[N],
    locale: &Base,
    make: impl Fn(Value) -> Shaped<SortedMap<K, V>>,
) -> Shaped<Vec<SortedMap<K, V>>> {
    let mut found = Vec::new();
    for kind in kinds {
        let mut rows = SortedMap::new();
        let row = table.iter_mut().rfind(|row| N::named(&row.0) == Some(*kind));
        if let Some((_, Value::Object(locales))) = row {
            if let Some(value) = take(locales, locale) {
                rows = make(value)?;
            }
        }
        found.push(rows);
    }
    Ok(found)
}

/// Takes what is there for a locale.
fn take(locales: &mut [(String, Value)], locale: &Base) -> Option<Value> {
    let row = locales.iter_mut().rfind(|row| base_key(row.0.as_bytes()).as_ref() == Some(locale))?;
    Some(std::mem::replace(&mut row.1, Value::Null))
}

impl Arrays {
    pub fn new(mut tables: NameTables, chain: &Chain, locale: &Base) -> Shaped<Arrays> {
        let names = &mut tables.names;
        Ok(Arrays {
            menus: tables_of(&mut tables.menus, chain.menus, locale, |value| {
                map_of(value, key(subtags::language), menu)
            })?,
            languages: tables_of(names, chain.languages, locale, |value| {
                map_of(value, base_key, rows::text)
            })?,
            scripts: tables_of(names, chain.scripts, locale, |value| {
                map_of(value, key(subtags::script), rows::text)
            })?,
            regions: tables_of(names, chain.regions, locale, |value| {
                map_of(value, key(subtags::region), rows::text)
            })?,
            variants: tables_of(names, VARIANTS, locale, |value| {
                map_of(value, key(subtags::variant), rows::text)
            })?,
            essentials: take(&mut tables.essentials, locale).map(essentials).transpose()?,
        })
    }
}

impl Source for Arrays {
    fn essentials(&self) -> Option<&Essentials> {
        self.essentials.as_ref()
    }

    fn asks_menus(&self) -> bool {
        !self.menus.is_empty()
    }

    fn menu(&self, language: &Language) -> Option<&Menu> {
        self.menus.iter().find_map(|menus| menus.get(language))
    }

    fn language(&self, key: &Base) -> Option<&[u8]> {
        first_hit(&self.languages, key)
    }

    fn script(&self, key: &Script) -> Option<&[u8]> {
        first_hit(&self.scripts, key)
    }

    fn region(&self, key: &Region) -> Option<&[u8]> {
        first_hit(&self.regions, key)
    }

    fn variant(&self, key: &Variant) -> Option<&[u8]> {
        first_hit(&self.variants, key)
    }
}

fn first_hit<'n, K: Ord>(maps: &'n [SortedMap<K, String>], key: &K) -> Option<&'n [u8]> {
    maps.iter().find_map(|map| map.get(key)).map(String::as_bytes)
}

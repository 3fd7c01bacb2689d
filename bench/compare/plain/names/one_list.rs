//! All names in one list, asked by kind, locale and key: each look-up is one of those that the program makes.
use super::chains::{Chain, Kind, MenuKind, Named, VARIANTS};
use super::{Essentials, Menu, NameTables, Source, essentials, menu};
use crate::json::Value;
use crate::rows::{self, Fault, Shaped, SortedMap, base_key, key, map_of, members};
use crate::subtags::{self, Base, Language, Region, Script, Variant};

/// Whose name is asked for.
#[derive(Clone, Copy, Debug, PartialEq, Eq, PartialOrd, Ord)]
enum Key {
    Language(Base),
    Script(Script),
    Region(Region),
    Variant(Variant),
}

/// The names of all locales, and what is asked of them.
pub struct OneList {
    names: SortedMap<(Kind, Base, Key), String>,
    menus: SortedMap<(MenuKind, Base, Language), Menu>,
    essentials: SortedMap<Base, Essentials>,
    chain: Chain,
    locale: Base,
}

/// The key of a row of a kind, where it is in its written form.
fn key_of(kind: Kind, name: &[u8]) -> Option<Key> {
    match kind {
        kind if kind < Kind::RegionMediumLight => base_key(name).map(Key::Language),
        kind if kind < Kind::ScriptMediumHeavy => key(subtags::region)(name).map(Key::Region),
        Kind::VariantMediumHeavy => key(subtags::variant)(name).map(Key::Variant),
        _ => key(subtags::script)(name).map(Key::Script),
    }
}

/// The rows of a table by kind, locale and key.
fn all_of<N: Named, K: Ord, V>(
    table: Vec<(String, Value)>,
    key: impl Fn(N, &[u8]) -> Option<K>,
    row: impl Fn(Value) -> Shaped<V>,
) -> Shaped<SortedMap<(N, Base, K), V>> {
    let mut rows = Vec::new();
    for (word, locales) in table {
        let kind = N::named(&word).ok_or(Fault::Shape)?;
        for (locale, named) in members(locales)? {
            let locale = base_key(locale.as_bytes());
            for (name, value) in members(named)? {
                let value = row(value)?;
                if let (Some(locale), Some(key)) = (locale, key(kind, name.as_bytes())) {
                    rows.push(((kind, locale, key), value));
                }
            }
        }
    }
    Ok(SortedMap::from_rows(rows))
}

impl OneList {
    pub fn new(tables: NameTables, chain: Chain, locale: Base) -> Shaped<OneList> {
        Ok(OneList {
            names: all_of(tables.names, key_of, rows::text)?,
            menus: all_of(tables.menus, |_, name| key(subtags::language)(name), menu)?,
            essentials: map_of(Value::Object(tables.essentials), base_key, essentials)?,
            chain,
            locale,
        })
    }

    fn first_hit(&self, kinds: &[Kind], key: Key) -> Option<&[u8]> {
        let mut names = kinds.iter().map(|kind| self.names.get(&(*kind, self.locale, key)));
        names.find_map(|name| name).map(String::as_bytes)
    }
}

impl Source for OneList {
    fn essentials(&self) -> Option<&Essentials> {
        self.essentials.get(&self.locale)
    }

    fn asks_menus(&self) -> bool {
        !self.chain.menus.is_empty()
    }

    fn menu(&self, language: &Language) -> Option<&Menu> {
        let mut kinds = self.chain.menus.iter();
        kinds.find_map(|kind| self.menus.get(&(*kind, self.locale, *language)))
    }

    fn language(&self, key: &Base) -> Option<&[u8]> {
        self.first_hit(self.chain.languages, Key::Language(*key))
    }

    fn script(&self, key: &Script) -> Option<&[u8]> {
        self.first_hit(self.chain.scripts, Key::Script(*key))
    }

    fn region(&self, key: &Region) -> Option<&[u8]> {
        self.first_hit(self.chain.regions, Key::Region(*key))
    }

    fn variant(&self, key: &Variant) -> Option<&[u8]> {
        self.first_hit(VARIANTS, Key::Variant(*key))
    }
}

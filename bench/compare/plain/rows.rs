//! Sorted arrays, and how they are made of JSON values.
use crate::json::Value;
use crate::subtags::{self, Base, Identifier, Language, Region, Script, Variant};

/// Why a first line gives no tables.
pub enum Fault {
    Json,
    Shape,
}

/// A value of a shape, or the fault.
pub type Shaped<T> = Result<T, Fault>;

/// A map as rows that rise by key.
pub struct SortedMap<K, V> {
    rows: Vec<(K, V)>,
}

impl<K: Ord, V> SortedMap<K, V> {
    pub fn new() -> Self {
        SortedMap { rows: Vec::new() }
    }

    /// Of rows with equal keys the last one counts.
    pub fn from_rows(mut rows: Vec<(K, V)>) -> Self {
        rows.reverse();
        rows.sort_by(|first, second| first.0.cmp(&second.0));
        rows.dedup_by(|second, first| first.0 == second.0);
        SortedMap { rows }
    }

    pub fn get(&self, key: &K) -> Option<&V> {
        let place = self.rows.binary_search_by(|row| row.0.cmp(key)).ok()?;
        Some(&self.rows[place].1)
    }

    /// Rows of this map cover those of the other one.
    pub fn covering(self, other: SortedMap<K, V>) -> Self {
        let mut rows = other.rows;
        rows.extend(self.rows);
        SortedMap::from_rows(rows)
    }

    pub fn iter(&self) -> impl Iterator<Item = &(K, V)> {
        self.rows.iter()
    }
}

pub fn members(value: Value) -> Shaped<Vec<(String, Value)>> {
    match value {
        Value::Object(members) => Ok(members),
        _ => Err(Fault::Shape),
    }
}

pub fn list(value: Value) -> Shaped<Vec<Value>> {
    match value {
        Value::List(values) => Ok(values),
        _ => Err(Fault::Shape),
    }
}

pub fn text(value: Value) -> Shaped<String> {
    match value {
        Value::Text(text) => Ok(text),
        _ => Err(Fault::Shape),
    }
}

fn subtag<T>(value: Value, read: fn(&[u8]) -> Option<T>) -> Shaped<T> {
    read(text(value)?.as_bytes()).ok_or(Fault::Shape)
}

pub fn language(value: Value) -> Shaped<Language> {
    subtag(value, subtags::language)
}

pub fn script(value: Value) -> Shaped<Script> {
    subtag(value, subtags::script)
}

pub fn region(value: Value) -> Shaped<Region> {
    subtag(value, subtags::region)
}

pub fn variant(value: Value) -> Shaped<Variant> {
    subtag(value, subtags::variant)
}

pub fn array<const SIZE: usize>(value: Value) -> Shaped<[Value; SIZE]> {
    list(value)?.try_into().map_err(|_| Fault::Shape)
}

pub fn pair<A, B>(
    first: fn(Value) -> Shaped<A>,
    second: fn(Value) -> Shaped<B>,
) -> impl Fn(Value) -> Shaped<(A, B)> {
    move |value| {
        let [a, b] = array(value)?;
        Ok((first(a)?, second(b)?))
    }
}

pub fn list_of<T>(value: Value, item: impl Fn(Value) -> Shaped<T>) -> Shaped<Vec<T>> {
    list(value)?.into_iter().map(item).collect()
}

/// The rows of a map. A row whose key is not in its written form is skipped, once its value has its shape.
pub fn map_of<K: Ord, V>(
    value: Value,
    key: impl Fn(&[u8]) -> Option<K>,
    row: impl Fn(Value) -> Shaped<V>,
) -> Shaped<SortedMap<K, V>> {
    let mut rows = Vec::new();
    for (name, value) in members(value)? {
        let value = row(value)?;
        if let Some(key) = key(name.as_bytes()) {
            rows.push((key, value));
        }
    }
    Ok(SortedMap::from_rows(rows))
}

/// Reads a key of one subtag, where it is in its written form.
pub fn key<const SIZE: usize>(
    read: fn(&[u8]) -> Option<[u8; SIZE]>,
) -> impl Fn(&[u8]) -> Option<[u8; SIZE]> {
    move |name| read(name).filter(|subtag| subtags::bytes(subtag) == name)
}

/// Reads a key of two subtags, where both are in their written form and joined by a hyphen.
pub fn key_pair<const FIRST: usize, const SECOND: usize>(
    first: fn(&[u8]) -> Option<[u8; FIRST]>,
    second: fn(&[u8]) -> Option<[u8; SECOND]>,
) -> impl Fn(&[u8]) -> Option<([u8; FIRST], [u8; SECOND])> {
    move |name| {
        let hyphen = name.iter().position(|byte| *byte == b'-')?;
        let (head, tail) = (&name[..hyphen], &name[hyphen + 1..]);
        Some((key(first)(head)?, key(second)(tail)?))
    }
}

/// Reads an identifier without variants, where it is in its written form.
pub fn base_key(name: &[u8]) -> Option<Base> {
    let identifier = Identifier::read(name).ok()?;
    let mut written = Vec::new();
    identifier.write(&mut written);
    (identifier.variants.is_empty() && written == name).then_some(identifier.base)
}

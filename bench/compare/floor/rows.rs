//! Rows of tables as two lists of numbers, and what they are made of.
use crate::json::Value;
use crate::packed::{packed, pair};
use std::hint::select_unpredictable;

pub const LEFT_TO_RIGHT: u64 = 1;
const RIGHT_TO_LEFT: u64 = 2;

/// Rows that rise by key. A key is one subtag, or two in one number, and so is a value.
#[derive(Default)]
pub struct Rows {
    keys: Vec<u64>,
    values: Vec<u64>,
}

impl Rows {
    pub fn from_pairs(mut rows: Vec<(u64, u64)>) -> Rows {
        rows.sort_by_key(|row| row.0);
        rows.dedup_by_key(|row| row.0);
        let (keys, values) = rows.into_iter().unzip();
        Rows { keys, values }
    }

    /// The value of a key. Each step of the search is a choice of two numbers, and no branch.
    #[inline(always)]
    pub fn get(&self, key: u64) -> Option<u64> {
        let (mut base, mut left) = (0, self.keys.len());
        while left > 1 {
            let half = left / 2;
            base = select_unpredictable(self.keys[base + half] <= key, base + half, base);
            left -= half;
        }
        (*self.keys.get(base)? == key).then(|| self.values[base])
    }
}

/// A member of an object.
pub fn member<'v>(value: &'v Value, name: &str) -> Option<&'v Value> {
    match value {
        Value::Object(members) => members.iter().find(|(key, _)| key == name).map(|(_, value)| value),
        _ => None,
    }
}

/// One subtag, or two of them, as a number.
pub fn number(value: &Value) -> Option<u64> {
    match value {
        Value::Text(text) => Some(key(text)),
        Value::List(values) => match &values[..] {
            [Value::Text(first), Value::Text(second)] => {
                Some(pair(packed(first.as_bytes()), packed(second.as_bytes())))
            }
            _ => None,
        },
        _ => None,
    }
}

fn key(text: &str) -> u64 {
    match text.split_once('-') {
        Some((first, second)) => pair(packed(first.as_bytes()), packed(second.as_bytes())),
        None => u64::from(packed(text.as_bytes())),
    }
}

/// The rows of a map, if there is one.
pub fn pairs(table: &Value, name: &str) -> Option<Vec<(u64, u64)>> {
    match member(table, name) {
        Some(Value::Object(members)) => members.iter().map(|(text, value)| Some((key(text), number(value)?))).collect(),
        _ => Some(Vec::new()),
    }
}

/// The scripts that run each way.
pub fn directions(tables: &Value) -> Option<Rows> {
    let table = member(tables, "direction")?;
    let mut rows = Vec::new();
    for (name, way) in [("ltr", LEFT_TO_RIGHT), ("rtl", RIGHT_TO_LEFT)] {
        if let Some(Value::List(scripts)) = member(table, name) {
            for script in scripts {
                rows.push((number(script)?, way));
            }
        }
    }
    Some(Rows::from_pairs(rows))
}

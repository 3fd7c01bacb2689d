//! A menu of languages: its rows, and their order.

/// A language of a menu, by `Tables::menu`.
#[derive(Clone, Debug, PartialEq, Eq, Hash)]
pub struct MenuRow {
    /// Its locale, as it was handed in.
    pub locale: String,
    /// Its name in the language of the menu.
    pub name: String,
    /// Its own name.
    pub own: String,
}

/// The rows in the order of the names, by code point: the platform has no other sort key.
pub fn in_order(mut rows: Vec<MenuRow>) -> Vec<MenuRow> {
    rows.sort_by(|row, other| row.name.cmp(&other.name));
    rows
}

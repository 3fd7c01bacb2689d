//! What an identifier is called in the language of a locale, by names that are asked for one at a time.
use crate::json::Value;
use crate::rows::{self, Fault, Shaped, array, list, members};
use crate::subtags::{self, Base, Identifier, Language, Refusal, Region, Script, Variant};

pub mod arrays;
pub mod chains;
pub mod one_list;

pub struct Menu {
    core: String,
    extension: String,
}

pub enum Item {
    Literal(String),
    Base,
    Qualifiers,
}

pub struct Essentials {
    pattern: Vec<Item>,
    separator: String,
}

/// The tables of a file that hold names.
#[derive(Default)]
pub struct NameTables {
    pub names: Vec<(String, Value)>,
    pub menus: Vec<(String, Value)>,
    pub essentials: Vec<(String, Value)>,
}

/// Where names are asked for, in the order of a chain and in the language of one locale.
pub trait Source {
    fn essentials(&self) -> Option<&Essentials>;

    fn asks_menus(&self) -> bool;

    fn menu(&self, language: &Language) -> Option<&Menu>;

    fn language(&self, key: &Base) -> Option<&[u8]>;

    fn script(&self, key: &Script) -> Option<&[u8]>;

    fn region(&self, key: &Region) -> Option<&[u8]>;

    fn variant(&self, key: &Variant) -> Option<&[u8]>;
}

fn menu(value: Value) -> Shaped<Menu> {
    let [core, extension] = array(value)?;
    Ok(Menu { core: rows::text(core)?, extension: rows::text(extension)? })
}

fn item(value: Value) -> Shaped<Item> {
    match value {
        Value::Text(text) => Ok(Item::Literal(text)),
        Value::Number(0.0) => Ok(Item::Base),
        Value::Number(1.0) => Ok(Item::Qualifiers),
        _ => Err(Fault::Shape),
    }
}

fn essentials(value: Value) -> Shaped<Essentials> {
    let (mut pattern, mut separator) = (None, None);
    for (name, value) in members(value)? {
        let items = list(value)?.into_iter().map(item).collect::<Shaped<Vec<Item>>>()?;
        match name.as_str() {
            "pattern" => pattern = Some(items),
            "separator" => separator = Some(items),
            _ => return Err(Fault::Shape),
        }
    }
    let literal = |item| match item {
        Item::Literal(text) => Some(text),
        Item::Base | Item::Qualifiers => None,
    };
    let separator = separator.ok_or(Fault::Shape)?.into_iter().find_map(literal);
    Ok(Essentials {
        pattern: pattern.ok_or(Fault::Shape)?,
        separator: separator.unwrap_or_else(|| ", ".to_string()),
    })
}

/// Writes the name of an identifier, a tab, and `R` where a raw subtag is in it, else `N`.
pub fn write<S: Source>(
    source: &S,
    identifier: &Identifier,
    qualifiers: &mut Vec<u8>,
    output: &mut Vec<u8>,
) -> Result<(), Refusal> {
    let essentials = source.essentials().ok_or(Refusal::IdentifierNotFound)?;
    let base = &identifier.base;
    let found = base_name(source, base);
    let is_raw = found.is_none();
    let found = found.unwrap_or(BaseName::of(subtags::bytes(&base.language)));
    let mut list = Qualifiers { text: qualifiers, separator: &essentials.separator, count: 0, is_raw: false };
    if !found.extension.is_empty() {
        list.push(Some(found.extension), b"");
    }
    if let (Some(script), false) = (base.script, found.has_script) {
        list.push(source.script(&script), &script);
    }
    if let (Some(region), false) = (base.region, found.has_region) {
        list.push(source.region(&region), subtags::bytes(&region));
    }
    for variant in &identifier.variants {
        list.push(source.variant(variant), subtags::bytes(variant));
    }
    let writes_raw = if list.count == 0 {
        output.extend_from_slice(found.text);
        is_raw
    } else {
        essentials.glue(found.text, is_raw, &list, output)
    };
    output.extend_from_slice(if writes_raw { b"\tR\n" } else { b"\tN\n" });
    Ok(())
}

/// The first name that is there: with script and region, with one of them, or of the language alone. A menu asks
/// for the language alone.
fn base_name<'n, S: Source>(source: &'n S, base: &Base) -> Option<BaseName<'n>> {
    let alone = Base::of_language(base.language);
    if source.asks_menus() {
        let of_menu = source.menu(&base.language).map(|menu| BaseName {
            extension: menu.extension.as_bytes(),
            ..BaseName::of(menu.core.as_bytes())
        });
        return of_menu.or_else(|| source.language(&alone).map(BaseName::of));
    }
    let with_script = base.script.is_some();
    let with_region = base.region.is_some();
    let trials = [
        (with_script && with_region, *base),
        (with_script, Base { region: None, ..*base }),
        (with_region, Base { script: None, ..*base }),
        (true, alone),
    ];
    let asked = trials.into_iter().filter(|trial| trial.0);
    asked.map(|trial| trial.1).find_map(|trial| {
        let text = source.language(&trial)?;
        Some(BaseName {
            has_script: trial.script.is_some(),
            has_region: trial.region.is_some(),
            ..BaseName::of(text)
        })
    })
}

/// What comes first in a name, what a menu puts after it, and which subtags it stands for beside the language.
struct BaseName<'n> {
    text: &'n [u8],
    extension: &'n [u8],
    has_script: bool,
    has_region: bool,
}

impl<'n> BaseName<'n> {
    fn of(text: &'n [u8]) -> Self {
        BaseName { text, extension: b"", has_script: false, has_region: false }
    }
}

/// The qualifiers of a name, joined.
struct Qualifiers<'n> {
    text: &'n mut Vec<u8>,
    separator: &'n str,
    count: usize,
    is_raw: bool,
}

impl Qualifiers<'_> {
    fn push(&mut self, name: Option<&[u8]>, raw: &[u8]) {
        if self.count == 0 {
            self.text.clear();
        } else {
            self.text.extend_from_slice(self.separator.as_bytes());
        }
        self.text.extend_from_slice(name.unwrap_or(raw));
        self.count += 1;
        self.is_raw |= name.is_none();
    }
}

impl Essentials {
    /// Writes the base and the qualifiers as the pattern has them, and answers whether a raw subtag was written.
    fn glue(&self, base: &[u8], is_raw: bool, list: &Qualifiers<'_>, output: &mut Vec<u8>) -> bool {
        let mut writes_raw = false;
        for item in &self.pattern {
            match item {
                Item::Literal(text) => output.extend_from_slice(text.as_bytes()),
                Item::Base => {
                    output.extend_from_slice(base);
                    writes_raw |= is_raw;
                }
                Item::Qualifiers => {
                    output.extend_from_slice(list.text);
                    writes_raw |= list.is_raw;
                }
            }
        }
        writes_raw
    }
}

//! The tables of a JSON text.
use crate::canonical::Rules;
use crate::json::{self, Value};
use crate::likely::Likely;
use crate::names::NameTables;
use crate::rows::{self, Fault, Shaped, list_of, members};
use crate::subtags::Script;

/// The tables that a file may hold, but for exemplar characters, which no command asks for.
#[derive(Default)]
pub struct Tables {
    pub likely: Option<Likely>,
    pub rules: Option<Rules>,
    pub directions: Option<Directions>,
    pub names: NameTables,
}

/// The scripts that run each way.
#[derive(Default)]
pub struct Directions {
    left_to_right: Vec<Script>,
    right_to_left: Vec<Script>,
}

impl Directions {
    fn from_value(value: Value) -> Shaped<Directions> {
        let mut directions = Directions::default();
        for (name, value) in members(value)? {
            let mut scripts = list_of(value, rows::script)?;
            scripts.sort_unstable();
            match name.as_str() {
                "ltr" => directions.left_to_right = scripts,
                "rtl" => directions.right_to_left = scripts,
                _ => return Err(Fault::Shape),
            }
        }
        Ok(directions)
    }

    /// The word for the direction of a script.
    pub fn word(&self, script: Option<Script>) -> &'static [u8] {
        match script {
            Some(script) if self.left_to_right.binary_search(&script).is_ok() => b"ltr\n",
            Some(script) if self.right_to_left.binary_search(&script).is_ok() => b"rtl\n",
            _ => b"none\n",
        }
    }
}

impl Tables {
    pub fn from_json(text: &[u8]) -> Shaped<Tables> {
        let mut tables = Tables::default();
        let (mut by_language, mut by_script, mut extended) = (None, None, None);
        for (name, value) in members(json::read(text).ok_or(Fault::Json)?)? {
            match name.as_str() {
                "likely_language" => by_language = Some(Likely::with_triple(value)?),
                "likely_script_region" => by_script = Some(Likely::from_value(value)?),
                "likely_extended" => extended = Some(Likely::from_value(value)?),
                "aliases" => tables.rules = Some(Rules::from_value(value)?),
                "direction" => tables.directions = Some(Directions::from_value(value)?),
                "names" => tables.names.names = members(value)?,
                "menus" => tables.names.menus = members(value)?,
                "essentials" => tables.names.essentials = members(value)?,
                "exemplars" => {}
                _ => return Err(Fault::Shape),
            }
        }
        if let (Some((by_language, triple)), Some(by_script)) = (by_language, by_script) {
            let mut last = triple;
            if let Some(extended) = extended {
                last = extended.covering(last);
            }
            tables.likely = Some(by_language.covering(by_script).covering(last));
        }
        Ok(tables)
    }
}

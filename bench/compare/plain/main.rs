//! Locale identifiers by line in plain Rust: the same work and the same bytes as of `icu_locale_cli COMMAND json`,
//! over sorted arrays of subtags, by binary search. The speed of that program is measured against this one. Of the
//! tables, those that a command does not ask for are not checked.
mod canonical;
mod json;
mod likely;
mod names;
mod negotiation;
mod rows;
mod subtags;
mod tables;

use crate::canonical::{Rules, read_value};
use crate::likely::{Favor, Likely};
use crate::names::arrays::Arrays;
use crate::names::chains::chain;
use crate::names::one_list::OneList;
use crate::negotiation::{Negotiator, read_list};
use crate::rows::Fault;
use crate::subtags::{Identifier, Refusal};
use crate::tables::{Directions, Tables};
use std::io::{self, Read, Write};
use std::process::ExitCode;

const FULL: usize = 1 << 16;
const NOT_FOUND: &str = "data: IdentifierNotFound";

/// What is done with each line.
enum Work<'t> {
    Maximize(&'t Likely),
    Minimize(&'t Likely, Favor),
    Canonicalize(&'t Likely, &'t Rules),
    Direction(&'t Likely, &'t Directions),
    Negotiate(Negotiator<'t>),
    Name(&'t OneList, Vec<u8>),
    NameByArrays(&'t Arrays, Vec<u8>),
}

impl Work<'_> {
    /// Writes the answer to a line, or refuses it and writes nothing.
    fn answer(&mut self, line: &[u8], output: &mut Vec<u8>) -> Result<(), Refusal> {
        match self {
            Work::Maximize(likely) => {
                let mut identifier = Identifier::read(line)?;
                let (full, changed) = likely.maximal(&identifier.base);
                identifier.base = full;
                write_changed(&identifier, changed, output);
            }
            Work::Minimize(likely, favor) => {
                let mut identifier = Identifier::read(line)?;
                let short = likely.minimal(&identifier.base, *favor);
                let changed = short != identifier.base;
                identifier.base = short;
                write_changed(&identifier, changed, output);
            }
            Work::Canonicalize(likely, rules) => canonicalize(likely, rules, line, output)?,
            Work::Direction(likely, directions) => {
                let identifier = Identifier::read(line)?;
                output.extend_from_slice(directions.word(likely.likely_script(&identifier.base)));
            }
            Work::Negotiate(negotiator) => match negotiator.negotiate(&read_list(line)?) {
                Some((place, found)) => {
                    write!(output, "{place}\t").unwrap_or_default();
                    found.write(output);
                    output.push(b'\n');
                }
                None => output.extend_from_slice(b"none\n"),
            },
            Work::Name(list, scratch) => {
                names::write(*list, &Identifier::read(line)?, scratch, output)?;
            }
            Work::NameByArrays(arrays, scratch) => {
                names::write(*arrays, &Identifier::read(line)?, scratch, output)?;
            }
        }
        Ok(())
    }
}

fn write_changed(identifier: &Identifier, changed: bool, output: &mut Vec<u8>) {
    identifier.write(output);
    output.extend_from_slice(if changed { b"\tM\n" } else { b"\tU\n" });
}

/// The answer to an identifier, or to an identifier, a tab and a value for `rg`.
fn canonicalize(likely: &Likely, rules: &Rules, line: &[u8], output: &mut Vec<u8>) -> Result<(), Refusal> {
    let mut parts = line.splitn(2, |byte| *byte == b'\t');
    let mut identifier = Identifier::read(parts.next().unwrap_or(b""))?;
    let Some(text) = parts.next() else {
        let changed = rules.canonicalize(likely, &mut identifier)?;
        write_changed(&identifier, changed, output);
        return Ok(());
    };
    let mut value = read_value(text).ok_or(Refusal::InvalidSubtag)?;
    let mut changed = rules.canonicalize(likely, &mut identifier)?;
    changed |= rules.canonicalize_value(&mut value)?;
    identifier.write(output);
    output.push(b'\t');
    output.extend_from_slice(&value);
    output.extend_from_slice(if changed { b"\tM\n" } else { b"\tU\n" });
    Ok(())
}

/// A text up to its first line feed, and what comes after that.
fn cut(text: &[u8]) -> (&[u8], &[u8]) {
    match text.iter().position(|byte| *byte == b'\n') {
        Some(place) => (&text[..place], &text[place + 1..]),
        None => (text, b""),
    }
}

/// Writes an answer for each line, and tells whether every line was accepted.
fn write_answers(mut work: Work<'_>, mut text: &[u8]) -> io::Result<bool> {
    let mut stdout = io::stdout().lock();
    let mut output = Vec::with_capacity(2 * FULL);
    let mut all = true;
    while !text.is_empty() {
        let (line, rest) = cut(text);
        text = rest;
        if let Err(refusal) = work.answer(line, &mut output) {
            all = false;
            output.extend_from_slice(b"?\t");
            output.extend_from_slice(refusal.name().as_bytes());
            output.push(b'\n');
        }
        if output.len() >= FULL {
            stdout.write_all(&output)?;
            output.clear();
        }
    }
    stdout.write_all(&output)?;
    Ok(all)
}

/// Runs a command over the tables of the first line, and tells whether every line was accepted.
fn run(words: &[&str], input: &[u8]) -> Result<bool, String> {
    let (json, text) = cut(input);
    let tables = Tables::from_json(json).map_err(|fault| match fault {
        Fault::Json => "tables: Json".to_string(),
        Fault::Shape => "tables: Shape".to_string(),
    })?;
    if let [command @ ("name" | "name-by-arrays"), word, preferences] = words {
        let chain = chain(word).ok_or("usage: plain COMMAND json")?;
        let locale = Identifier::read(preferences.as_bytes()).map_err(|refusal| refusal.name())?.base;
        let written = if *command == "name" {
            let list = OneList::new(tables.names, chain, locale).map_err(|_| "tables: Shape")?;
            write_answers(Work::Name(&list, Vec::new()), text)
        } else {
            let arrays = Arrays::new(tables.names, &chain, &locale).map_err(|_| "tables: Shape")?;
            write_answers(Work::NameByArrays(&arrays, Vec::new()), text)
        };
        return written.map_err(|_| "write failed".into());
    }
    let likely = tables.likely.as_ref().ok_or(NOT_FOUND)?;
    let mut lines = text;
    let work = match words {
        ["maximize"] => Work::Maximize(likely),
        ["minimize"] => Work::Minimize(likely, Favor::Region),
        ["minimize-script"] => Work::Minimize(likely, Favor::Script),
        ["canonicalize"] => Work::Canonicalize(likely, tables.rules.as_ref().ok_or(NOT_FOUND)?),
        ["direction"] => Work::Direction(likely, tables.directions.as_ref().ok_or(NOT_FOUND)?),
        ["negotiate"] if !likely.is_settled() => return Err("tables not settled".into()),
        ["negotiate"] => {
            let (first, rest) = cut(text);
            lines = rest;
            let available = read_list(first).map_err(|refusal| format!("available: {}", refusal.name()))?;
            Work::Negotiate(Negotiator::new(likely, available))
        }
        ["settled"] => {
            println!("{}", if likely.is_settled() { "yes" } else { "no" });
            return Ok(true);
        }
        _ => return Err("usage: plain COMMAND json".into()),
    };
    write_answers(work, lines).map_err(|_| "write failed".into())
}

fn main() -> ExitCode {
    let words: Vec<String> = std::env::args().skip(1).filter(|word| word != "json").collect();
    let words: Vec<&str> = words.iter().map(String::as_str).collect();
    let mut input = Vec::new();
    let read = io::stdin().lock().read_to_end(&mut input).map_err(|_| "read failed".to_string());
    match read.and_then(|_| run(&words, &input)) {
        Ok(true) => ExitCode::SUCCESS,
        Ok(false) => ExitCode::from(1),
        Err(words) => {
            eprintln!("{words}");
            ExitCode::from(2)
        }
    }
}

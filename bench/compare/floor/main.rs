//! What the machine can do: likely subtags and directions of identifiers by line, over subtags that are packed into numbers.
//! The words, the tables and the bytes that are written are those of `icu_locale_cli COMMAND json`. A line has at most 64 KB.
#[path = "../plain/json.rs"]
#[allow(dead_code)]
mod json;
mod likely;
mod packed;
mod reading;
mod rows;

use likely::Likely;
use packed::Output;
use reading::{Identifier, PADDING, Refusal, end_of_line, read, variants};
use rows::Rows;
use std::io::{self, Read, Write};
use std::process::ExitCode;

const FULL: usize = 1 << 16;

/// What is done with each line.
enum Work {
    Maximize,
    Minimize { script_first: bool },
    Direction(Rows),
}

impl Work {
    fn write(&self, likely: &Likely, asked: &Identifier, text: &[u8], output: &mut Output) -> Result<(), Refusal> {
        let variants = variants(text, asked)?;
        let base = match self {
            Work::Maximize => likely.maximal(asked.base),
            Work::Minimize { script_first } => likely.minimal(asked.base, *script_first),
            Work::Direction(scripts) => {
                output.put_text(match scripts.get(u64::from(likely.maximal(asked.base).script)) {
                    Some(rows::LEFT_TO_RIGHT) => b"ltr\n",
                    Some(_) => b"rtl\n",
                    None => b"none\n",
                });
                return Ok(());
            }
        };
        base.write(output);
        for variant in &variants {
            output.put_text(b"-");
            output.put_text(variant);
        }
        output.put_text(if base == asked.base { b"\tU\n" } else { b"\tM\n" });
        Ok(())
    }
}

/// Writes an answer for each line, and tells whether every line was accepted.
fn answer(work: &Work, likely: &Likely, text: &[u8]) -> io::Result<bool> {
    let (mut stdout, mut output) = (io::stdout().lock(), Output::new(2 * FULL));
    let (mut place, mut all) = (0, true);
    while place < text.len() - PADDING {
        let found = read(text, place).and_then(|asked| {
            work.write(likely, &asked, text, &mut output)?;
            Ok(asked.end)
        });
        place = 1 + found.unwrap_or_else(|refusal| {
            all = false;
            output.put_text(refusal.answer());
            end_of_line(text, place)
        });
        if output.end >= FULL {
            stdout.write_all(output.written())?;
            output.end = 0;
        }
    }
    stdout.write_all(output.written())?;
    Ok(all)
}

/// The tables and the work of a run, where the words and the tables are of the forms that are read here.
fn prepared(command: &str, tables: &[u8]) -> Option<(Work, Likely)> {
    let tables = json::read(tables)?;
    let likely = Likely::from_tables(&tables)?;
    let work = match command {
        "maximize" => Work::Maximize,
        "minimize" => Work::Minimize { script_first: false },
        "minimize-script" => Work::Minimize { script_first: true },
        "direction" => Work::Direction(rows::directions(&tables)?),
        _ => return None,
    };
    Some((work, likely))
}

fn main() -> ExitCode {
    let mut input = Vec::new();
    let read = io::stdin().lock().read_to_end(&mut input);
    let cut = input.iter().position(|byte| *byte == b'\n').unwrap_or(input.len());
    let Some((work, likely)) = std::env::args().nth(1).and_then(|word| prepared(&word, &input[..cut])) else {
        eprintln!("usage: floor COMMAND json");
        return ExitCode::from(2);
    };
    if input.last() != Some(&b'\n') {
        input.push(b'\n');
    }
    input.extend_from_slice(&[0; PADDING]);
    match read.and_then(|_| answer(&work, &likely, &input[cut + 1..])) {
        Ok(true) => ExitCode::SUCCESS,
        Ok(false) => ExitCode::from(1),
        Err(_) => ExitCode::from(2),
    }
}

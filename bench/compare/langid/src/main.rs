//! The maximal or the minimal form of the identifier of each line, by the crate unic-langid, over the table that it has
//! built in. Each answer is written as the program writes it.
use std::fmt::Write as _;
use std::io::{self, Read, Write};
use unic_langid::LanguageIdentifier;

fn main() -> io::Result<()> {
    let is_maximal = std::env::args().nth(1).as_deref() == Some("maximize");
    let mut input = Vec::new();
    io::stdin().read_to_end(&mut input)?;
    let mut output = String::with_capacity(1 << 17);
    for line in input.strip_suffix(b"\n").unwrap_or(&input).split(|byte| *byte == b'\n') {
        match LanguageIdentifier::from_bytes(line) {
            Ok(mut identifier) => {
                let changed = if is_maximal { identifier.maximize() } else { identifier.minimize() };
                let _ = write!(output, "{identifier}\t{}\n", if changed { 'M' } else { 'U' });
            }
            Err(_) => output.push_str("?\n"),
        }
        if output.len() > 1 << 16 {
            io::stdout().write_all(output.as_bytes())?;
            output.clear();
        }
    }
    io::stdout().write_all(output.as_bytes())
}

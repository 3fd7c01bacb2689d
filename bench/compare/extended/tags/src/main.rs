//! Reads a language tag by the crate language-tags, so many times: `tags TAG TIMES`. It writes the tag, as it was read.
//! `tags validate` tells of each line `valid`, why it is not, or `?` where it is not well-formed.
use language_tags::LanguageTag;
use std::hint::black_box;
use std::io::{self, BufRead, Write};

fn validated(line: &str) -> String {
    match LanguageTag::parse(line).map(|tag| tag.validate()) {
        Ok(Ok(())) => "valid".to_string(),
        Ok(Err(why)) => format!("{why:?}"),
        Err(_) => "?".to_string(),
    }
}

fn validate_lines() -> io::Result<()> {
    let mut output = io::BufWriter::new(io::stdout().lock());
    for line in io::stdin().lock().lines() {
        writeln!(output, "{}", validated(&line?))?;
    }
    output.flush()
}

fn read(tag: &str, times: usize) {
    let mut read = None;
    for _ in 0..times {
        read = LanguageTag::parse(black_box(tag)).ok();
    }
    println!("{}", read.expect("a tag that is well formed"));
}

fn main() {
    let mut words = std::env::args().skip(1);
    let tag = words.next().expect("a tag, or validate");
    if tag == "validate" {
        validate_lines().expect("lines");
        return;
    }
    let times: usize = words.next().and_then(|word| word.parse().ok()).expect("how many times");
    read(&tag, times);
}

//! Identifiers, read from a text with zeros after it.
use crate::likely::Base;
use crate::packed::{language, region, script};

/// So many bytes are read at once.
pub const PADDING: usize = 8;
const LONGEST_VARIANT: usize = 8;

/// Why a line is refused.
pub enum Refusal {
    InvalidLanguage,
    InvalidSubtag,
}

impl Refusal {
    pub fn answer(self) -> &'static [u8] {
        match self {
            Refusal::InvalidLanguage => b"?\tInvalidLanguage\n",
            Refusal::InvalidSubtag => b"?\tInvalidSubtag\n",
        }
    }
}

/// The identifier of a line: its subtags, where its variants begin if it has some, and where the line ends.
pub struct Identifier {
    pub base: Base,
    variants: Option<usize>,
    pub end: usize,
}

/// A piece of a line: its first four bytes, how long it is, and where it ends. One of more than eight bytes is none.
struct Piece {
    word: u32,
    length: usize,
    end: usize,
}

impl Piece {
    #[inline(always)]
    fn at(text: &[u8], place: usize) -> Piece {
        let mut bytes = [0; PADDING];
        bytes.copy_from_slice(&text[place..place + PADDING]);
        let word = u64::from_be_bytes(bytes);
        let ends = equal(word, b'-') | equal(word, b'_') | equal(word, b'\n');
        let length = ends.leading_zeros() as usize / 8;
        Piece { word: (word >> 32) as u32, length, end: place + length }
    }
}

/// The highest bit of each byte that is the one looked for.
#[inline(always)]
fn equal(word: u64, byte: u8) -> u64 {
    const LOW: u64 = 0x7f7f_7f7f_7f7f_7f7f;
    let differing = word ^ u64::from_ne_bytes([byte; 8]);
    !((differing & LOW) + LOW | differing | LOW)
}

pub fn end_of_line(text: &[u8], place: usize) -> usize {
    place + text[place..].iter().position(|byte| *byte == b'\n').unwrap_or(0)
}

/// The identifier of the line that begins at a place. Its variants are not looked at.
#[inline(always)]
pub fn read(text: &[u8], place: usize) -> Result<Identifier, Refusal> {
    let mut piece = Piece::at(text, place);
    let language = language(piece.word, piece.length).ok_or(Refusal::InvalidLanguage)?;
    let mut found = Identifier { base: Base { language, script: 0, region: 0 }, variants: None, end: piece.end };
    if text[found.end] == b'\n' {
        return Ok(found);
    }
    piece = Piece::at(text, found.end + 1);
    if let Some(script) = script(piece.word, piece.length) {
        (found.base.script, found.end) = (script, piece.end);
        if text[found.end] == b'\n' {
            return Ok(found);
        }
        piece = Piece::at(text, found.end + 1);
    }
    if let Some(region) = region(piece.word, piece.length) {
        (found.base.region, found.end) = (region, piece.end);
        if text[found.end] == b'\n' {
            return Ok(found);
        }
    }
    found.variants = Some(found.end + 1);
    found.end = end_of_line(text, found.end);
    Ok(found)
}

/// The variants of an identifier, in their order.
#[inline(always)]
pub fn variants(text: &[u8], found: &Identifier) -> Result<Vec<Vec<u8>>, Refusal> {
    match found.variants {
        Some(start) => read_variants(&text[start..found.end]).ok_or(Refusal::InvalidSubtag),
        None => Ok(Vec::new()),
    }
}

#[cold]
fn read_variants(text: &[u8]) -> Option<Vec<Vec<u8>>> {
    let pieces = text.split(|byte| matches!(byte, b'-' | b'_'));
    let mut found: Vec<Vec<u8>> = pieces.map(<[u8]>::to_ascii_lowercase).collect();
    let count = found.len();
    found.sort_unstable();
    found.dedup();
    (found.len() == count && found.iter().all(|piece| is_variant(piece))).then_some(found)
}

fn is_variant(piece: &[u8]) -> bool {
    let fits = matches!(piece.len(), 5..=LONGEST_VARIANT) || (piece.len() == 4 && piece[0].is_ascii_digit());
    fits && piece.iter().all(u8::is_ascii_alphanumeric)
}

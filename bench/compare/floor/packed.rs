//! Subtags as numbers: a subtag has at most four bytes, the first one highest. Numbers compare as the texts do, and 0 is none.

pub const UNKNOWN_LANGUAGE: u32 = packed(b"und");
pub const UNKNOWN_SCRIPT: u32 = packed(b"Zzzz");
pub const UNKNOWN_REGION: u32 = packed(b"ZZ");

const HIGH: u32 = 0x8080_8080;
const SMALL: u32 = 0x2020_2020;

/// The number of a text of at most four bytes.
pub const fn packed(text: &[u8]) -> u32 {
    let mut number = 0;
    let mut place = 0;
    while place < 4 {
        number = number << 8 | if place < text.len() { text[place] as u32 } else { 0 };
        place += 1;
    }
    number
}

/// The key of two subtags.
pub fn pair(first: u32, second: u32) -> u64 {
    u64::from(first) << 32 | u64::from(second)
}

/// The bits of the first so many bytes, from 1 to 4.
fn mask(length: usize) -> u32 {
    !0 << (32 - 8 * length)
}

fn are_letters(word: u32, length: usize) -> bool {
    let low = (word | SMALL) & !HIGH;
    let are = (low + 0x1f1f_1f1f) & !(low + 0x0505_0505) & !word;
    are & HIGH & mask(length) == HIGH & mask(length)
}

fn are_digits(word: u32, length: usize) -> bool {
    let low = word & !HIGH;
    let are = (low + 0x5050_5050) & !(low + 0x4646_4646) & !word;
    are & HIGH & mask(length) == HIGH & mask(length)
}

/// Four bytes, and a piece's length, as a language in its written form.
#[inline(always)]
pub fn language(word: u32, length: usize) -> Option<u32> {
    let reads = matches!(length, 2 | 3) && are_letters(word, length);
    reads.then(|| (word | SMALL) & mask(length))
}

#[inline(always)]
pub fn script(word: u32, length: usize) -> Option<u32> {
    let reads = length == 4 && are_letters(word, 4);
    reads.then_some((word | SMALL) & !0x2000_0000)
}

#[inline(always)]
pub fn region(word: u32, length: usize) -> Option<u32> {
    match length {
        2 if are_letters(word, 2) => Some(word & !SMALL & mask(2)),
        3 if are_digits(word, 3) => Some(word & mask(3)),
        _ => None,
    }
}

/// Room for answers.
pub struct Output {
    bytes: Vec<u8>,
    pub end: usize,
}

impl Output {
    pub fn new(room: usize) -> Output {
        Output { bytes: vec![0; room], end: 0 }
    }

    pub fn written(&self) -> &[u8] {
        &self.bytes[..self.end]
    }

    #[inline(always)]
    pub fn put(&mut self, subtag: u32) {
        self.bytes[self.end..self.end + 4].copy_from_slice(&subtag.to_be_bytes());
        self.end += 4 - subtag.trailing_zeros() as usize / 8;
    }

    #[inline(always)]
    pub fn put_text(&mut self, text: &[u8]) {
        self.bytes[self.end..self.end + text.len()].copy_from_slice(text);
        self.end += text.len();
    }
}

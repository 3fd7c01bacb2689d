//! Subtags as padded bytes in written case, and identifiers: read and written.

pub type Language = [u8; 3];
pub type Script = [u8; 4];
pub type Region = [u8; 3];
pub type Variant = [u8; 8];

pub const UNKNOWN_LANGUAGE: Language = *b"und";
pub const UNKNOWN_SCRIPT: Script = *b"Zzzz";
pub const UNKNOWN_REGION: Region = *b"ZZ\0";

/// Why a line is refused.
#[derive(Clone, Copy, Debug, PartialEq, Eq)]
pub enum Refusal {
    InvalidLanguage,
    InvalidSubtag,
    NoFixedPoint,
    NoSubdivisionFixedPoint,
    IdentifierNotFound,
}

impl Refusal {
    pub fn name(self) -> &'static str {
        match self {
            Refusal::InvalidLanguage => "InvalidLanguage",
            Refusal::InvalidSubtag => "InvalidSubtag",
            Refusal::NoFixedPoint => "NoFixedPoint",
            Refusal::NoSubdivisionFixedPoint => "NoSubdivisionFixedPoint",
            Refusal::IdentifierNotFound => "IdentifierNotFound",
        }
    }
}

/// An identifier without its variants.
#[derive(Clone, Copy, Debug, PartialEq, Eq, PartialOrd, Ord)]
pub struct Base {
    pub language: Language,
    pub script: Option<Script>,
    pub region: Option<Region>,
}

/// An identifier, whose variants rise.
#[derive(Clone, Debug, PartialEq, Eq, PartialOrd, Ord)]
pub struct Identifier {
    pub base: Base,
    pub variants: Vec<Variant>,
}

/// Up to eight bytes in lower case.
fn lower_padded(piece: &[u8]) -> [u8; 8] {
    let mut subtag = [0; 8];
    for (kept, byte) in subtag.iter_mut().zip(piece) {
        *kept = byte.to_ascii_lowercase();
    }
    subtag
}

pub fn language(piece: &[u8]) -> Option<Language> {
    let language = match *piece {
        [first, second] => [first, second, 0],
        [first, second, third] => [first, second, third],
        _ => return None,
    };
    let reads = piece.iter().all(u8::is_ascii_alphabetic);
    reads.then(|| language.map(|byte| byte.to_ascii_lowercase()))
}

pub fn script(piece: &[u8]) -> Option<Script> {
    let script: Script = piece.try_into().ok()?;
    let reads = script.iter().all(u8::is_ascii_alphabetic);
    let [first, rest @ ..] = script.map(|byte| byte.to_ascii_lowercase());
    reads.then_some([first.to_ascii_uppercase(), rest[0], rest[1], rest[2]])
}

pub fn region(piece: &[u8]) -> Option<Region> {
    match *piece {
        [first, second] if piece.iter().all(u8::is_ascii_alphabetic) => {
            Some([first.to_ascii_uppercase(), second.to_ascii_uppercase(), 0])
        }
        [first, second, third] if piece.iter().all(u8::is_ascii_digit) => Some([first, second, third]),
        _ => None,
    }
}

pub fn variant(piece: &[u8]) -> Option<Variant> {
    let fits = matches!(piece.len(), 5..=8) || (piece.len() == 4 && piece[0].is_ascii_digit());
    let reads = fits && piece.iter().all(u8::is_ascii_alphanumeric);
    reads.then(|| lower_padded(piece))
}

/// A piece of a value: 3 to 8 letters or digits.
pub fn value_piece(piece: &[u8]) -> Option<[u8; 8]> {
    let reads = matches!(piece.len(), 3..=8) && piece.iter().all(u8::is_ascii_alphanumeric);
    reads.then(|| lower_padded(piece))
}

/// The bytes of a subtag without its padding.
pub fn bytes(subtag: &[u8]) -> &[u8] {
    let length = subtag.iter().position(|byte| *byte == 0);
    &subtag[..length.unwrap_or(subtag.len())]
}

pub fn is_separator(byte: &u8) -> bool {
    *byte == b'-' || *byte == b'_'
}

impl Base {
    pub fn of_language(language: Language) -> Base {
        Base { language, script: None, region: None }
    }

    pub fn write(&self, output: &mut Vec<u8>) {
        output.extend_from_slice(bytes(&self.language));
        if let Some(script) = self.script {
            output.push(b'-');
            output.extend_from_slice(&script);
        }
        if let Some(region) = self.region {
            output.push(b'-');
            output.extend_from_slice(bytes(&region));
        }
    }
}

impl Identifier {
    pub fn read(text: &[u8]) -> Result<Identifier, Refusal> {
        let mut pieces = text.split(is_separator);
        let first = pieces.next().unwrap_or(b"");
        let language = language(first).ok_or(Refusal::InvalidLanguage)?;
        let mut piece = pieces.next();
        let script = piece.and_then(script);
        if script.is_some() {
            piece = pieces.next();
        }
        let region = piece.and_then(region);
        if region.is_some() {
            piece = pieces.next();
        }
        let mut variants = Vec::new();
        while let Some(text) = piece {
            let variant = variant(text).ok_or(Refusal::InvalidSubtag)?;
            match variants.binary_search(&variant) {
                Ok(_) => return Err(Refusal::InvalidSubtag),
                Err(place) => variants.insert(place, variant),
            }
            piece = pieces.next();
        }
        Ok(Identifier { base: Base { language, script, region }, variants })
    }

    pub fn write(&self, output: &mut Vec<u8>) {
        self.base.write(output);
        for variant in &self.variants {
            output.push(b'-');
            output.extend_from_slice(bytes(variant));
        }
    }
}

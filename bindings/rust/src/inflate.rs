//! Reads what gzip has written, without its options: RFC 1951 and 1952. The standard library has nothing for it, and the
//! crate depends on no other.

const LENGTHS: [(usize, u32); 29] = [
    (3, 0), (4, 0), (5, 0), (6, 0), (7, 0), (8, 0), (9, 0), (10, 0), (11, 1), (13, 1), (15, 1), (17, 1), (19, 2), (23, 2),
    (27, 2), (31, 2), (35, 3), (43, 3), (51, 3), (59, 3), (67, 4), (83, 4), (99, 4), (115, 4), (131, 5), (163, 5), (195, 5),
    (227, 5), (258, 0),
];
const DISTANCES: [(usize, u32); 30] = [
    (1, 0), (2, 0), (3, 0), (4, 0), (5, 1), (7, 1), (9, 2), (13, 2), (17, 3), (25, 3), (33, 4), (49, 4), (65, 5), (97, 5),
    (129, 6), (193, 6), (257, 7), (385, 7), (513, 8), (769, 8), (1025, 9), (1537, 9), (2049, 10), (3073, 10), (4097, 11),
    (6145, 11), (8193, 12), (12289, 12), (16385, 13), (24577, 13),
];
// In which order the lengths of the code of lengths are.
const ORDER: [usize; 19] = [16, 17, 18, 0, 8, 7, 9, 6, 10, 5, 11, 4, 12, 3, 13, 2, 14, 1, 15];
const END: usize = 256;
const LONGEST: u32 = 15;

// After how many bytes it is asked whether they are enough.
const STEP: usize = 32768;

/// The bytes of a gzip file of one member, without a name, a comment or an extra field; None where it is no such file, or
/// its checksum is another one. Where the first bytes are enough there may be no more: these are not compared with the
/// checksum, which is that of all, but by the caller, who tells whether they are as they have to be.
pub fn gunzip_until(file: &[u8], enough: impl Fn(&[u8]) -> Option<bool>) -> Option<Vec<u8>> {
    let (head, rest) = (file.get(..10)?, file.get(10..)?);
    if head[..4] != [0x1f, 0x8b, 8, 0] {
        return None;
    }
    let packed = rest.get(..rest.len().checked_sub(8)?)?;
    let size = u32::from_le_bytes(rest[rest.len() - 4..].try_into().ok()?) as usize;
    let mut bits = Bits { bytes: packed, kept: 0, count: 0 };
    let (mut out, mut next) = (Vec::new(), STEP);
    loop {
        let is_last = bits.take(1)? == 1;
        let codes = match bits.take(2)? {
            0 => {
                stored(&mut bits, &mut out)?;
                None
            }
            1 => Some(fixed()?),
            2 => Some(dynamic(&mut bits)?),
            _ => return None,
        };
        while let Some(codes) = &codes {
            if coded(&mut bits, codes, &mut out, size.min(next))? {
                break;
            } else if out.len() > size {
                return None;
            } else if let Some(is_whole) = enough(&out) {
                return is_whole.then_some(out);
            }
            next = out.len() + STEP;
        }
        if is_last {
            let wanted = u32::from_le_bytes(rest[packed.len()..][..4].try_into().ok()?);
            return (out.len() == size && checksum(&out) == wanted).then_some(out);
        }
    }
}

/// That of RFC 1952, section 8.
pub fn checksum(bytes: &[u8]) -> u32 {
    !bytes.iter().fold(u32::MAX, |sum, byte| CHECKS[(sum as u8 ^ byte) as usize] ^ (sum >> 8))
}

const CHECKS: [u32; 256] = {
    let mut table = [0; 256];
    let mut place = 0;
    while place < 256 {
        let (mut row, mut step) = (place as u32, 0);
        while step < 8 {
            row = if row & 1 == 1 { 0xedb8_8320 ^ (row >> 1) } else { row >> 1 };
            step += 1;
        }
        table[place] = row;
        place += 1;
    }
    table
};

/// Bits of bytes, the lowest first.
struct Bits<'a> {
    bytes: &'a [u8],
    kept: u64,
    count: u32,
}

impl Bits<'_> {
    // The next bits, at most 32, which are zero after the end.
    fn look(&mut self, many: u32) -> usize {
        while self.count < 32 {
            let Some((first, rest)) = self.bytes.split_first() else { break };
            self.kept |= u64::from(*first) << self.count;
            self.count += 8;
            self.bytes = rest;
        }
        (self.kept & ((1 << many) - 1)) as usize
    }

    fn skip(&mut self, many: u32) -> Option<()> {
        self.count = self.count.checked_sub(many)?;
        self.kept >>= many;
        Some(())
    }

    fn take(&mut self, many: u32) -> Option<usize> {
        let found = self.look(many);
        self.skip(many)?;
        Some(found)
    }
}

/// A code of Huffman: by the next bits, the symbol and how many of them it takes, 0 where they are no code.
struct Code {
    entries: Vec<(u16, u8)>,
    longest: u32,
}

impl Code {
    // By the length of each symbol's code, 0 where it has none; None where there are more codes than bits tell apart.
    fn of(lengths: &[u8]) -> Option<Self> {
        let longest = u32::from(*lengths.iter().max()?).min(LONGEST);
        let mut entries = vec![(0, 0); 1 << longest];
        let mut code = 0_u32;
        for length in 1..=longest {
            code <<= 1;
            for (symbol, _) in lengths.iter().enumerate().filter(|(_, its)| u32::from(**its) == length) {
                if code >> length != 0 {
                    return None;
                }
                let first = (code.reverse_bits() >> (32 - length)) as usize;
                for entry in entries.iter_mut().skip(first).step_by(1 << length) {
                    *entry = (symbol as u16, length as u8);
                }
                code += 1;
            }
        }
        Some(Code { entries, longest })
    }

    fn symbol(&self, bits: &mut Bits<'_>) -> Option<usize> {
        let (symbol, length) = self.entries[bits.look(self.longest)];
        if length == 0 {
            return None;
        }
        bits.skip(u32::from(length))?;
        Some(usize::from(symbol))
    }
}

/// The codes of a block: of bytes and lengths, and of distances.
struct Codes {
    symbols: Code,
    distances: Code,
}

fn fixed() -> Option<Codes> {
    let mut lengths = [8; 288];
    lengths[144..256].fill(9);
    lengths[256..280].fill(7);
    Some(Codes { symbols: Code::of(&lengths)?, distances: Code::of(&[5; 30])? })
}

// The codes at the head of a block.
fn dynamic(bits: &mut Bits<'_>) -> Option<Codes> {
    let (symbols, distances, many) = (bits.take(5)? + 257, bits.take(5)? + 1, bits.take(4)? + 4);
    let mut of_lengths = [0; 19];
    for place in &ORDER[..many] {
        of_lengths[*place] = bits.take(3)? as u8;
    }
    let code = Code::of(&of_lengths)?;
    let mut lengths: Vec<u8> = Vec::with_capacity(symbols + distances);
    while lengths.len() < symbols + distances {
        let (length, times) = match code.symbol(bits)? {
            16 => (*lengths.last()?, bits.take(2)? + 3),
            17 => (0, bits.take(3)? + 3),
            18 => (0, bits.take(7)? + 11),
            length => (length as u8, 1),
        };
        lengths.resize(lengths.len() + times, length);
    }
    if lengths.len() > symbols + distances {
        return None;
    }
    Some(Codes { symbols: Code::of(&lengths[..symbols])?, distances: Code::of(&lengths[symbols..])? })
}

// A block as it is: its length, the same turned over, and its bytes.
fn stored(bits: &mut Bits<'_>, out: &mut Vec<u8>) -> Option<()> {
    bits.skip(bits.count % 8)?;
    let (length, turned) = (bits.take(16)?, bits.take(16)?);
    if length ^ turned != 0xffff {
        return None;
    }
    for _ in 0..length {
        out.push(bits.take(8)? as u8);
    }
    Some(())
}

// A block by its codes: a byte, or how many bytes there are once more and how far back. It is read until there are more than
// `most` bytes, or to its end: the answer is whether it has ended.
fn coded(bits: &mut Bits<'_>, codes: &Codes, out: &mut Vec<u8>, most: usize) -> Option<bool> {
    loop {
        let symbol = codes.symbols.symbol(bits)?;
        if symbol < END {
            out.push(symbol as u8);
        } else if symbol == END {
            return Some(true);
        } else {
            let (least, more) = *LENGTHS.get(symbol - END - 1)?;
            let length = least + bits.take(more)?;
            let (least, more) = *DISTANCES.get(codes.distances.symbol(bits)?)?;
            let from = out.len().checked_sub(least + bits.take(more)?)?;
            for at in from..from + length {
                out.push(out[at]);
            }
        }
        if out.len() > most {
            return Some(false);
        }
    }
}

#[cfg(test)]
mod tests {
    use super::gunzip_until;
    use crate::data::FILES;
    use std::io::Write;
    use std::process::{Command, Stdio};

    // What the program gzip writes, or reads.
    fn by_gzip(words: &[&str], given: &[u8]) -> Option<Vec<u8>> {
        let (input, output) = (Stdio::piped(), Stdio::piped());
        let mut gzip = Command::new("gzip").args(words).stdin(input).stdout(output).stderr(Stdio::null()).spawn().ok()?;
        let mut input = gzip.stdin.take()?;
        let given = given.to_vec();
        let writer = std::thread::spawn(move || input.write_all(&given));
        let out = gzip.wait_with_output().ok()?;
        let _ = writer.join();
        out.status.success().then_some(out.stdout)
    }

    fn gunzip(file: &[u8]) -> Option<Vec<u8>> {
        gunzip_until(file, |_| None)
    }

    #[test]
    fn what_is_enough() {
        let text = drawn(300_000, 20);
        let packed = by_gzip(&["-n9", "-c"], &text).expect("there is gzip");
        for least in [0, 1, 40_000, 100_000, 299_999] {
            let found = gunzip_until(&packed, |text| (text.len() >= least).then_some(true)).expect("it is a file of gzip");
            assert!(found.len() >= least && found.len() < least + 33_100 && text.starts_with(&found), "{least}");
        }
        let cut = &packed[..packed.len() / 2];
        let half = |is_whole| gunzip_until(cut, |text| (text.len() > 30_000).then_some(is_whole));
        assert!(half(true).is_some_and(|found| text.starts_with(&found)));
        assert_eq!((half(false), gunzip(cut)), (None, None));
    }

    #[test]
    fn each_file_of_the_data_as_by_gzip() {
        for (name, file) in FILES {
            let found = gunzip(file);
            assert!(found.is_some(), "{name}");
            assert_eq!(found, by_gzip(&["-dc"], file), "{name}");
        }
    }

    // Bytes that repeat more or less, always the same.
    fn drawn(length: usize, kinds: u32) -> Vec<u8> {
        let mut state = 1_u32;
        let mut next = || {
            state = state.wrapping_mul(1_664_525).wrapping_add(1_013_904_223);
            (state >> 16) % kinds
        };
        (0..length).map(|_| next() as u8).collect()
    }

    #[test]
    fn texts_as_gzip_packs_them() {
        let texts = [vec![], b"a".to_vec(), b"ab".repeat(50_000), drawn(100_000, 256), drawn(100_000, 3), drawn(300, 20)];
        for text in texts {
            for level in ["-n1", "-n6", "-n9"] {
                let packed = by_gzip(&[level, "-c"], &text).expect("there is gzip");
                assert_eq!(gunzip(&packed).as_ref(), Some(&text));
            }
        }
    }

    #[test]
    fn what_is_no_file_of_gzip() {
        let text = b"identifiers and identifiers of locales".repeat(20);
        let packed = by_gzip(&["-n9", "-c"], &text).expect("there is gzip");
        for end in 0..packed.len() {
            assert_ne!(gunzip(&packed[..end]).as_ref(), Some(&text), "cut at {end}");
        }
        for at in 0..packed.len() * 8 {
            let mut changed = packed.clone();
            changed[at / 8] ^= 1 << (at % 8);
            assert!(gunzip(&changed).map_or(true, |found| found == text), "a changed bit at {at} gives another text");
        }
        for start in 0..=u16::MAX {
            let [first, other] = start.to_le_bytes();
            let head = [0x1f, 0x8b, 8, 0, 0, 0, 0, 0, 0, 0, first, other];
            let _ = gunzip(&[&head, drawn(40, 256).as_slice()].concat());
        }
    }
}

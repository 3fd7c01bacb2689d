//! CLDR's data inside the crate, as texts of tables. docs/CLDR.md of the repository says what is in each file.
use crate::inflate::{checksum, gunzip_until};
use crate::Refusal;
use std::collections::BTreeMap;
use std::iter::once;

// Each file by its name, as build.rs has found them: none where the crate was made without data.
include!(concat!(env!("OUT_DIR"), "/data.rs"));

const BASE: &str = "base-and-supplement";
const ALL: &str = "all-but-names";

/// A part of tables before the rows of locales, and the rows.
type Column<'a> = (&'a [u8], Vec<u8>);

/// The text of the tables that have the names of some locales, and that of their supplement.
pub fn texts_of(locales: &[&str]) -> Result<(Vec<u8>, Vec<u8>), Refusal> {
    with_columns(|columns| put_some(locales, columns))
}

/// The text of the tables of all locales without their names, which are in `FLAT`, and that of their supplement.
pub fn texts_of_all() -> Result<(Vec<u8>, Vec<u8>), Refusal> {
    let text = unpacked(ALL, |_| None)?.filter(|_| !FLAT.is_empty()).ok_or(Refusal::NoData)?;
    match lines(&text).collect::<Vec<_>>()[..] {
        [supplement, tables] => Ok((tables.to_vec(), supplement.to_vec())),
        _ => Err(Refusal::Damaged { file: ALL }),
    }
}

// Where names begin in the text of tables.
const NAMES: &str = "\"names\":";

// What is before the rows of names of languages.
const OF_LANGUAGES: &str = "\"language/";

/// The text of the tables that have the names of scripts, regions and variants in a locale.
pub fn parts_of(locale: &str) -> Result<Vec<u8>, Refusal> {
    let texts = with_columns(|columns| {
        put_some(&[locale], columns)?;
        let names = columns[1].0.windows(NAMES.len()).rposition(|window| window == NAMES.as_bytes());
        columns[1].0 = &columns[1].0[names.unwrap_or_default()..];
        for (part, column) in columns {
            if !["script/", "region/", "variant/"].iter().any(|name| has(part, name)) {
                column.clear();
            }
        }
        Ok(())
    });
    texts.map(|(tables, _)| [b"{", tables.as_slice()].concat())
}

/// The text of the tables that have the names in a locale but for those of dialects, and that of their supplement.
pub fn standard_of(locale: &str) -> Result<(Vec<u8>, Vec<u8>), Refusal> {
    with_columns(|columns| {
        put_some(&[locale], columns)?;
        for (_, column) in columns.iter_mut().filter(|(part, _)| has(part, OF_LANGUAGES)) {
            *column = without_dialects(column);
        }
        Ok(())
    })
}

// Whether a part of a text has a word.
fn has(part: &[u8], word: &str) -> bool {
    part.windows(word.len()).any(|window| window == word.as_bytes())
}

// The row of a locale, `"en":{..}`, without the names of dialects, whose keys have `-`.
fn without_dialects(row: &[u8]) -> Vec<u8> {
    let Some(begin) = row.iter().position(|it| *it == b'{') else { return row.to_vec() };
    let (named, members) = row.split_at(begin + 1);
    let is_dialect = |member: &&[u8]| member.split(|it| *it == b'"').nth(1).is_some_and(|key| key.contains(&b'-'));
    let kept: Vec<&[u8]> = members_of(members.strip_suffix(b"}").unwrap_or(members)).filter(|it| !is_dialect(it)).collect();
    [named, &kept.join(&b','), b"}"].concat()
}

// The members of an object of JSON without its brackets, where each value is a text or a list: they are cut at the commas
// that are in neither.
fn members_of(object: &[u8]) -> impl Iterator<Item = &[u8]> {
    let (mut is_text, mut is_behind_backslash, mut lists) = (false, false, 0);
    object.split(move |byte| {
        let is_plain = !std::mem::take(&mut is_behind_backslash);
        match byte {
            b'\\' => is_behind_backslash = is_plain,
            b'"' if is_plain => is_text = !is_text,
            b'[' if !is_text => lists += 1,
            b']' if !is_text => lists -= 1,
            _ => {}
        }
        *byte == b',' && !is_text && lists == 0
    })
}

// The two texts, with the rows that are put in.
fn with_columns(
    put_in: impl FnOnce(&mut [Column<'_>]) -> Result<(), Refusal>,
) -> Result<(Vec<u8>, Vec<u8>), Refusal> {
    let base = unpacked(BASE, |_| None)?.ok_or(Refusal::NoData)?;
    let mut parts = lines(&base);
    let (called, behind) = (parts.next().unwrap_or_default(), parts.next().unwrap_or_default());
    let mut columns: Vec<Column<'_>> = once(called).chain(parts).map(|part| (part, Vec::new())).collect();
    put_in(&mut columns)?;
    let supplement = [called, &columns[0].1, behind].concat();
    Ok((columns[1..].iter().flat_map(|(part, rows)| [*part, rows]).collect::<Vec<_>>().concat(), supplement))
}

/// The locale that is named so, in any case, with `-` or `_`, if there are names in it.
pub fn known(locale: &str) -> Option<&'static str> {
    let key = key_of(locale);
    LOCALES.iter().copied().find(|name| name.eq_ignore_ascii_case(&key))
}

fn key_of(locale: &str) -> String {
    locale.to_ascii_lowercase().replace('_', "-")
}

// The language of a key, whose file has its rows.
fn language_of(key: &str) -> &str {
    key.split('-').next().unwrap_or_default()
}

// What a file holds, or what is enough of it; None where there is no such file.
fn unpacked(name: &str, enough: impl Fn(&[u8]) -> Option<bool>) -> Result<Option<Vec<u8>>, Refusal> {
    let Some((file, packed)) = FILES.iter().find(|(its, _)| *its == name) else { return Ok(None) };
    gunzip_until(packed, enough).map(Some).ok_or(Refusal::Damaged { file })
}

fn lines(text: &[u8]) -> impl Iterator<Item = &[u8]> {
    text.split(|it| *it == b'\n')
}

// Each locale once, in the order of their names: tables whose members come so are read in one pass. A locale is found in any
// case, with `-` or `_`.
fn put_some(locales: &[&str], columns: &mut [Column<'_>]) -> Result<(), Refusal> {
    let mut languages = BTreeMap::new();
    let keys: Vec<String> = locales.iter().map(|word| key_of(word)).collect();
    let mut order: Vec<(usize, &String)> = keys.iter().enumerate().collect();
    order.sort_by_key(|(_, key)| known(key));
    for (place, key) in order {
        let language = language_of(key);
        if !languages.contains_key(language) {
            let its: Vec<&String> = keys.iter().filter(|key| language_of(key) == language).collect();
            let enough = |text: &[u8]| first_block(text, &its, columns.len() - 1).map(is_whole);
            let is_language = ![BASE, ALL].contains(&language);
            languages.insert(language, if is_language { unpacked(language, enough)? } else { None }.unwrap_or_default());
        }
        let is_new = !keys[..place].contains(key);
        if is_new && !put(&languages[language], |name| name.eq_ignore_ascii_case(key), columns) {
            return Err(Refusal::NoLocale { place });
        }
    }
    Ok(())
}

// The blocks of a language's file: groups of locales with the same rows.
fn blocks_of(head: &[u8]) -> impl Iterator<Item = Vec<Vec<&str>>> {
    let head = std::str::from_utf8(head).unwrap_or_default();
    let names = head.split_once(':').map_or(head, |(_, names)| names);
    names.split('|').map(|block| block.split(';').map(|group| group.split(',').collect()).collect())
}

// The first line and the first block of a language's file, where that has all of some keys, and there is another one.
fn first_block<'a>(text: &'a [u8], keys: &[&String], tables: usize) -> Option<&'a [u8]> {
    let mut blocks = blocks_of(lines(text).next()?);
    let (groups, _) = (blocks.next()?, blocks.next()?);
    let is_there = |key: &&String| groups.iter().flatten().any(|name| name.eq_ignore_ascii_case(key));
    if !keys.iter().all(is_there) {
        return None;
    }
    let (last, _) = text.iter().enumerate().filter(|(_, it)| **it == b'\n').nth(tables * groups.len())?;
    Some(&text[..=last])
}

// Whether a first block begins with the sum of what is behind it.
fn is_whole(block: &[u8]) -> bool {
    let (sum, rest) = block.split_at(block.len().min(8));
    sum == format!("{:08x}", checksum(rest)).as_bytes()
}

// Puts the rows of the chosen locales of a language after the parts of the tables, and tells whether there are any. The
// first line has the names of the locales that have the same rows, as groups; each further one is the row of a group.
fn put(text: &[u8], is_chosen: impl Fn(&str) -> bool, columns: &mut [Column<'_>]) -> bool {
    let (tables, rows) = (columns.len() - 1, lines(text).collect::<Vec<_>>());
    let (mut begin, mut chosen) = (1, Vec::new());
    for groups in blocks_of(rows[0]) {
        for (place, group) in groups.iter().enumerate() {
            let names = group.iter().copied().filter(|name| !name.is_empty() && is_chosen(name));
            chosen.extend(names.map(|name| (name, begin + place, groups.len())));
        }
        begin += tables * groups.len();
    }
    chosen.sort_unstable();
    for (name, first, step) in &chosen {
        for ((_, column), row) in columns.iter_mut().zip(rows.iter().skip(*first).step_by(*step).take(tables)) {
            put_row(column, name, row);
        }
    }
    !chosen.is_empty()
}

fn put_row(column: &mut Vec<u8>, name: &str, row: &[u8]) {
    if !row.is_empty() {
        column.extend_from_slice(if column.is_empty() { b"\"" } else { b",\"" });
        column.extend_from_slice(name.as_bytes());
        column.extend_from_slice(b"\":");
        column.extend_from_slice(row);
    }
}

#[cfg(test)]
mod tests {
    use super::{first_block, is_whole, lines, texts_of, unpacked, ALL, BASE, FILES};

    #[test]
    fn rows_come_in_the_order_of_their_names() {
        let Ok((tables, _)) = texts_of(&["zh", "en-AU", "de"]) else { return };
        let text = String::from_utf8(tables).expect("a text");
        let (_, essentials) = text.split_once("\"essentials\":").expect("patterns of names");
        let places = ["\"de\":", "\"en-AU\":", "\"zh\":"].map(|name| essentials.find(name));
        assert!(places[0].is_some() && places.windows(2).all(|its| its[0] < its[1]));
    }

    #[test]
    fn a_first_block_with_another_sum() {
        let base = unpacked(BASE, |_| None).expect("the base is whole").unwrap_or_default();
        for (language, _) in FILES.iter().filter(|(name, _)| ![BASE, ALL].contains(name)) {
            let text = unpacked(language, |_| None).expect("the file is whole").unwrap_or_default();
            let key = String::from(*language);
            let block = first_block(&text, &[&key], lines(&base).count() - 2).unwrap_or_default();
            assert_eq!(is_whole(block), lines(&text).next().is_some_and(|head| head.contains(&b'|')), "{language}");
            for at in (0..block.len() * 8).step_by(9973) {
                let mut changed = block.to_vec();
                changed[at / 8] ^= 1 << (at % 8);
                assert!(!is_whole(&changed), "{language}: a changed bit at {at}");
            }
        }
    }
}

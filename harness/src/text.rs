//! A model of the text form, from document 02's first request: the text of words, and the words of a text.
use crate::check::{header_and_limits, Refusal};
use crate::plan::header;

/// "text length beyond 262,144 being line 0"
pub const TEXT_LIMIT: usize = 262_144;

const SLICE_TOO_SHORT: Refusal = (17, 0);

fn fitting<T>(made: Vec<T>, room: usize) -> Result<Vec<T>, Refusal> {
    if made.len() > room { Err(SLICE_TOO_SHORT) } else { Ok(made) }
}

/// The bytes that the writer gives: "the writer gives 1, 2, then 17".
pub fn write(words: &[u32], room: usize) -> Result<Vec<u8>, Refusal> {
    header_and_limits(words)?;
    fitting(text_of(words).into_bytes(), room)
}

/// The words that the reader gives: "17, with 0, slice too short, after 16".
pub fn read(text: &[u8], room: usize) -> Result<Vec<u32>, Refusal> {
    let words = words_of(text).map_err(|line| (16, line as u32))?;
    fitting(words, room)
}

/// "the first line has T, N, I in decimal, then one line for the widths, one for each node's six numbers, one for each item's seven"
fn text_of(words: &[u32]) -> String {
    let counts = [words[1], words[3], words[5]];
    let (widths, behind) = words[8..].split_at(counts[0] as usize);
    let (nodes, items) = behind.split_at(6 * counts[1] as usize);
    let mut lines = vec![spaced(&counts), spaced(widths)];
    lines.extend(nodes.chunks(6).map(spaced));
    lines.extend(items.chunks(7).map(|item| format!("{} {} {}", item[0], term(&item[1..4]), term(&item[4..]))));
    lines.into_iter().map(|line| line + "\n").collect()
}

fn spaced(words: &[u32]) -> String {
    words.iter().map(u32::to_string).collect::<Vec<_>>().join(" ")
}

/// "A constant is a third word whose term starts with 2; all other words are unsigned."
fn term(words: &[u32]) -> String {
    match *words {
        [2, second, constant] => format!("2 {second} {}", constant as i32),
        _ => spaced(words),
    }
}

/// Or the line: "The reader gives up at the first bad, missing or surplus line".
fn words_of(text: &[u8]) -> Result<Vec<u32>, usize> {
    if text.len() > TEXT_LIMIT {
        return Err(0);
    }
    let lines: Vec<&[u8]> = text.split_inclusive(|&byte| byte == b'\n').collect();
    let parts = |line: usize, count: usize| lines.get(line - 1).and_then(|bytes| parts(bytes, count)).ok_or(line);
    let counts = unsigned_all(&parts(1, 3)?).ok_or(1usize)?;
    if !(1..=16).contains(&counts[0]) || !(1..=256).contains(&counts[1]) || counts[2] > 2000 {
        return Err(1);
    }
    let [tables, nodes, items] = [0, 1, 2].map(|k| counts[k] as usize);
    let mut words = header(counts[0], counts[1], counts[2]).to_vec();
    let widths = unsigned_all(&parts(2, tables)?).ok_or(2usize)?;
    if widths.iter().any(|width| !(1..=64).contains(width)) {
        return Err(2);
    }
    words.extend(widths);
    for line in 3..3 + nodes {
        words.extend(unsigned_all(&parts(line, 6)?).ok_or(line)?);
    }
    for line in 3 + nodes..3 + nodes + items {
        words.extend(item(&parts(line, 7)?).ok_or(line)?);
    }
    let surplus = 3 + nodes + items;
    if lines.len() < surplus { Ok(words) } else { Err(surplus) }
}

/// What a line has between its spaces, if it ends with a newline and has so many: "single spaces, each line ended by a newline".
fn parts(line: &[u8], count: usize) -> Option<Vec<&[u8]>> {
    let parts: Vec<&[u8]> = line.strip_suffix(b"\n")?.split(|&byte| byte == b' ').collect();
    (parts.len() == count).then_some(parts)
}

fn unsigned_all(parts: &[&[u8]]) -> Option<Vec<u32>> {
    parts.iter().map(|part| unsigned(part)).collect()
}

fn item(parts: &[&[u8]]) -> Option<Vec<u32>> {
    let third = |code: usize| if parts[code] == b"2" { constant(parts[code + 2]) } else { unsigned(parts[code + 2]) };
    let mut words = unsigned_all(&[parts[0], parts[1], parts[2], b"0", parts[4], parts[5], b"0"])?;
    (words[3], words[6]) = (third(1)?, third(4)?);
    Some(words)
}

/// "no other sign, no leading zeros"
fn unsigned(part: &[u8]) -> Option<u32> {
    let digits = !part.is_empty() && part.iter().all(u8::is_ascii_digit);
    let leading_zero = part.len() > 1 && part[0] == b'0';
    if !digits || leading_zero {
        return None;
    }
    std::str::from_utf8(part).ok()?.parse().ok()
}

/// "a minus before negative constants": 0 has none.
fn constant(part: &[u8]) -> Option<u32> {
    match part.strip_prefix(b"-") {
        Some(size) => unsigned(size).filter(|size| (1..=1 << 31).contains(size)).map(u32::wrapping_neg),
        None => unsigned(part).filter(|&word| word < 1 << 31),
    }
}

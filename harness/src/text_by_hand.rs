//! The text form written by hand, for the benchmark: one pass over words or bytes, as strict as the library.
use crate::plan::header;
use std::ops::RangeInclusive;

/// The words of the longest text: as many tables, nodes and items as there may be, every number as long as it may be.
pub fn longest() -> Vec<u32> {
    let mut words = header(16, 256, 2000).to_vec();
    words.extend([64; 16]);
    words.resize(words[0] as usize, u32::MAX);
    words
}

/// Puts the text of the words in place of what `text` has, or gives the number of the refusal.
pub fn write(words: &[u32], text: &mut Vec<u8>) -> Result<(), u32> {
    let (widths, nodes, items) = parts(words)?;
    text.clear();
    push_line(text, &[words[1], words[3], words[5]]);
    push_line(text, widths);
    nodes.chunks_exact(6).for_each(|node| push_line(text, node));
    for item in items.chunks_exact(7) {
        push_number(text, item[0]);
        for term in [&item[1..4], &item[4..7]] {
            text.push(b' ');
            push_number(text, term[0]);
            text.push(b' ');
            push_number(text, term[1]);
            text.push(b' ');
            push_third(text, term[0], term[2]);
        }
        text.push(b'\n');
    }
    Ok(())
}

/// The widths, nodes and items of a table whose header fits and whose counts are within the limits.
fn parts(words: &[u32]) -> Result<(&[u32], &[u32], &[u32]), u32> {
    let &[total, tables, 8, nodes, nodes_at, items, items_at, 0, ref behind @ ..] = words else { return Err(1) };
    let widths_end = 8 + u64::from(tables);
    let nodes_end = widths_end + 6 * u64::from(nodes);
    let end = nodes_end + 7 * u64::from(items);
    let fits = [total, nodes_at, items_at].map(u64::from) == [end, widths_end, nodes_end] && words.len() as u64 == end;
    if !fits {
        return Err(1);
    }
    if !(1..=16).contains(&tables) || !(1..=256).contains(&nodes) || items > 2000 {
        return Err(2);
    }
    let (widths, behind) = behind.split_at(tables as usize);
    if widths.iter().any(|width| !(1..=64).contains(width)) {
        return Err(2);
    }
    let (nodes, items) = behind.split_at(6 * nodes as usize);
    Ok((widths, nodes, items))
}

fn push_line(text: &mut Vec<u8>, words: &[u32]) {
    for (place, &word) in words.iter().enumerate() {
        if place > 0 {
            text.push(b' ');
        }
        push_number(text, word);
    }
    text.push(b'\n');
}

fn push_third(text: &mut Vec<u8>, code: u32, word: u32) {
    if code == 2 && (word as i32) < 0 {
        text.push(b'-');
        push_number(text, word.wrapping_neg());
    } else {
        push_number(text, word);
    }
}

fn push_number(text: &mut Vec<u8>, mut number: u32) {
    let mut digits = [0; 10];
    let mut start = digits.len();
    loop {
        start -= 1;
        digits[start] = b'0' + (number % 10) as u8;
        number /= 10;
        if number == 0 {
            return text.extend_from_slice(&digits[start..]);
        }
    }
}

/// Puts the words of the text in place of what `words` has, or gives the number of the line that is wrong.
pub fn read(text: &[u8], words: &mut Vec<u32>) -> Result<(), u32> {
    if text.len() > 262_144 {
        return Err(0);
    }
    words.clear();
    let mut reader = Reader { rest: text, line: 1 };
    reader.table(words).ok_or(reader.line)
}

struct Reader<'a> {
    rest: &'a [u8],
    line: u32,
}

impl Reader<'_> {
    fn table(&mut self, words: &mut Vec<u32>) -> Option<()> {
        let (tables, nodes, items) = (self.number(1..=16, b' ')?, self.number(1..=256, b' ')?, self.number(0..=2000, b'\n')?);
        words.extend(header(tables, nodes, items));
        self.numbers(tables, 1..=64, words)?;
        for _ in 0..nodes {
            self.numbers(6, 0..=u32::MAX, words)?;
        }
        for _ in 0..items {
            words.push(self.number(0..=u32::MAX, b' ')?);
            self.term(b' ', words)?;
            self.term(b'\n', words)?;
        }
        self.rest.is_empty().then_some(())
    }

    /// A line of numbers.
    fn numbers(&mut self, count: u32, range: RangeInclusive<u32>, words: &mut Vec<u32>) -> Option<()> {
        for _ in 1..count {
            words.push(self.number(range.clone(), b' ')?);
        }
        words.push(self.number(range, b'\n')?);
        Some(())
    }

    fn term(&mut self, end: u8, words: &mut Vec<u32>) -> Option<()> {
        let code = self.number(0..=u32::MAX, b' ')?;
        words.extend([code, self.number(0..=u32::MAX, b' ')?]);
        words.push(match self.rest.split_first() {
            Some((b'-', rest)) if code == 2 => {
                self.rest = rest;
                self.number(1..=1 << 31, end)?.wrapping_neg()
            }
            _ => self.number(0..=if code == 2 { i32::MAX as u32 } else { u32::MAX }, end)?,
        });
        Some(())
    }

    fn number(&mut self, range: RangeInclusive<u32>, end: u8) -> Option<u32> {
        let mut number = 0u32;
        let mut length = 0;
        while let Some(digit @ b'0'..=b'9') = self.rest.get(length) {
            number = number.checked_mul(10)?.checked_add(u32::from(digit - b'0'))?;
            length += 1;
        }
        let leading_zero = length > 1 && self.rest[0] == b'0';
        if length == 0 || leading_zero || !range.contains(&number) || self.rest.get(length) != Some(&end) {
            return None;
        }
        self.rest = &self.rest[length + 1..];
        self.line += u32::from(end == b'\n');
        Some(number)
    }
}

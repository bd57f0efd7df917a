//! Random inputs of the writer and the reader of texts.
use crate::dice::Dice;
use crate::generate::damaged;
use crate::plan::header;
use crate::text::{read, write, TEXT_LIMIT};

/// One input of the writer (words, and the bytes lent) and one of the reader (text, and the words lent).
#[derive(Clone, Debug)]
pub struct Input {
    pub words: Vec<u32>,
    pub text_room: usize,
    pub text: Vec<u8>,
    pub words_room: usize,
}

const EDGES: [u32; 14] = [0, 1, 2, 9, 10, 99, 100, 999_999_999, 1_000_000_000, (1 << 31) - 1, 1 << 31, (1 << 31) + 1, u32::MAX - 1, u32::MAX];

/// What may be put in place of a number of a text; some are numbers of this form, some are not.
const NUMBERS: [&str; 39] = [
    "0", "1", "2", "2", "2", "9", "10", "16", "17", "64", "65", "256", "257", "2000", "2001", "2147483647", "2147483648", "-2147483648", "-2147483649",
    "4294967291", "4294967295", "4294967296", "9999999999", "10000000000", "18446744073709551616", "18446744073709551617", "-18446744073709551615",
    "00", "01", "-0", "-1", "-5", "-01", "+1", "--1", "-", "1-", "", "0x1",
];

const BYTES: &[u8] = b"  --+.,x001223456789\n\n\r\t\x0b\0\xff\xb2";

/// Words that pass refusals 1 and 2 and are hardly ever a plan; many terms have code 2.
fn table(dice: &mut Dice) -> Vec<u32> {
    let (tables, nodes, items) = match dice.below(1000) {
        0 => (16, 256, 2000),
        _ => (dice.pick(&[1, 1, 2, 3, 7, 15, 16]), dice.pick(&[1, 1, 2, 3, 10]), dice.pick(&[0, 1, 2, 3, 3, 10])),
    };
    let mut words = header(tables, nodes, items).to_vec();
    words.extend((0..tables).map(|_| if dice.chance(50) { dice.pick(&[1, 2, 9, 10, 63, 64]) } else { dice.between(1, 64) as u32 }));
    words.extend((0..6 * nodes).map(|_| word(dice)));
    for _ in 0..items {
        let mut item: Vec<u32> = (0..7).map(|_| word(dice)).collect();
        for code in [1, 4] {
            if dice.chance(50) {
                item[code] = 2;
            }
        }
        words.extend(item);
    }
    words
}

fn word(dice: &mut Dice) -> u32 {
    match dice.below(4) {
        0 => dice.below(20) as u32,
        1 => dice.word() as u32,
        _ => dice.pick(&EDGES),
    }
}

/// Words with a header that fits, but a limit passed, or with a damaged word.
fn refused(dice: &mut Dice) -> Vec<u32> {
    let mut words = table(dice);
    match dice.below(4) {
        0 => {
            let (tables, nodes, items) = dice.pick(&[(0, 1, 0), (17, 1, 0), (1, 0, 0), (1, 257, 0), (1, 1, 2001)]);
            words = header(tables, nodes, items).to_vec();
            words.resize(words[0] as usize, 1);
            words
        }
        1 => {
            let last = 7 + words[1] as usize;
            let place = dice.between(8, last);
            words[place] = dice.pick(&[0, 65, u32::MAX]);
            words
        }
        _ => damaged(dice, &words),
    }
}

/// Exactly what is needed, one less, none, more or something below; what a refused call is lent counts little.
fn room(dice: &mut Dice, needed: Option<usize>) -> usize {
    let Some(needed) = needed else { return dice.pick(&[0, 1, 100, 500]) };
    match dice.below(10) {
        0 => needed - 1,
        1 => 0,
        2 => needed + dice.between(1, 9),
        3 => dice.below(needed),
        _ => needed,
    }
}

/// Of the words given, which may be refused, or of words that are no plan.
pub fn random(dice: &mut Dice, given: &[u32]) -> Input {
    let words = match dice.below(10) {
        0..=4 => given.to_vec(),
        5..=8 => table(dice),
        _ => refused(dice),
    };
    let whole = write(&words, usize::MAX).ok();
    let text_room = room(dice, whole.as_ref().map(Vec::len));
    let mut text = whole.unwrap_or_else(|| write(&table(dice), usize::MAX).unwrap());
    if dice.chance(60) {
        for _ in 0..dice.pick(&[1, 1, 2, 3]) {
            damage(dice, &mut text);
        }
    }
    if dice.below(500) == 0 {
        lengthen(dice, &mut text);
    }
    let words_room = room(dice, read(&text, usize::MAX).ok().map(|words| words.len()));
    Input { words, text_room, text, words_room }
}

fn damage(dice: &mut Dice, text: &mut Vec<u8>) {
    if text.is_empty() {
        return text.push(dice.pick(BYTES));
    }
    match dice.below(16) {
        0..=4 => damage_byte(dice, text),
        5..=7 => damage_lines(dice, text),
        8 => text.truncate(dice.below(text.len())),
        9 => drop(text.pop()),
        10 => text.push(dice.pick(BYTES)),
        11 => damage_counts(dice, text),
        _ => damage_number(dice, text),
    }
}

/// A byte changed, put in, taken away, or a digit in place of another.
fn damage_byte(dice: &mut Dice, text: &mut Vec<u8>) {
    let place = dice.below(text.len());
    match dice.below(5) {
        0 => text[place] = dice.pick(BYTES),
        1 => text[place] ^= 1 << dice.below(8),
        2 => text.insert(place, dice.pick(BYTES)),
        3 => drop(text.remove(place)),
        _ => {
            let digits: Vec<usize> = (0..text.len()).filter(|&k| text[k].is_ascii_digit()).collect();
            if !digits.is_empty() {
                text[dice.pick(&digits)] = b'0' + dice.below(10) as u8;
            }
        }
    }
}

/// Two lines swapped, one twice, one dropped, or two made one.
fn damage_lines(dice: &mut Dice, text: &mut Vec<u8>) {
    let mut lines: Vec<Vec<u8>> = text.split_inclusive(|&byte| byte == b'\n').map(<[u8]>::to_vec).collect();
    let (first, second) = (dice.below(lines.len()), dice.below(lines.len()));
    match dice.below(5) {
        0 | 1 => lines.swap(first, second),
        2 => lines.insert(first, lines[second].clone()),
        3 => drop(lines.remove(first)),
        _ => drop(lines[first].pop()),
    }
    *text = lines.concat();
}

/// One of the numbers of the first line a little more or less, or at a limit.
fn damage_counts(dice: &mut Dice, text: &mut Vec<u8>) {
    let end = text.iter().position(|&byte| byte == b'\n').unwrap_or(text.len());
    let line = String::from_utf8_lossy(&text[..end]).into_owned();
    let mut parts: Vec<String> = line.split(' ').map(str::to_string).collect();
    let place = dice.below(parts.len());
    let number: i64 = parts[place].parse().unwrap_or(1);
    parts[place] = dice.pick(&[number + 1, number - 1, 0, 1, 16, 17, 256, 257, 2000, 2001]).to_string();
    text.splice(..end, parts.join(" ").into_bytes());
}

fn damage_number(dice: &mut Dice, text: &mut Vec<u8>) {
    let separates = |byte: &u8| matches!(byte, b' ' | b'\n');
    let starts: Vec<usize> = (0..text.len()).filter(|&k| k == 0 || separates(&text[k - 1])).collect();
    let start = dice.pick(&starts);
    let end = text[start..].iter().position(|byte| separates(byte)).map_or(text.len(), |length| start + length);
    text.splice(start..end, dice.pick(&NUMBERS).bytes());
}

/// To about the longest that is read, with whole lines or other bytes behind.
fn lengthen(dice: &mut Dice, text: &mut Vec<u8>) {
    let length = dice.pick(&[TEXT_LIMIT - 1, TEXT_LIMIT, TEXT_LIMIT, TEXT_LIMIT + 1, TEXT_LIMIT + 1, 300_000]);
    let filling: &[u8] = dice.pick(&[b"1 0 0 0 0 0 0\n", b"1 0 0 0 0 0\n", b"0", b"\n", b"7 "]);
    let missing = length.saturating_sub(text.len());
    text.extend(filling.iter().cycle().take(missing));
}

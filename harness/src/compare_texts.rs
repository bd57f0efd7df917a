//! The writer and the reader of texts beside the model: answers, and every byte and word of the slices.
use crate::check::Refusal;
use crate::compare::{accepted, refused, same, WORD};
use crate::library::{self, Answer};
use crate::text::{read, write};
use crate::text_by_hand;
use crate::texts::Input;

/// What stands in a text's slice before a call.
const BYTE: u8 = 0x5a;

/// The numbers of both answers, or the first difference.
pub fn compare(input: &Input) -> Result<[u32; 2], String> {
    let numbers = [compare_writing(input)?, compare_reading(input)?];
    if is_right_by_hand(input) { Ok(numbers) } else { Err("the text written by hand, for the benchmark, is not the model's".into()) }
}

/// What the benchmark has beside the library must be as strict.
fn is_right_by_hand(input: &Input) -> bool {
    let (mut text, mut words) = (vec![], vec![]);
    let written = text_by_hand::write(&input.words, &mut text).map(|()| text).map_err(|number| (number, 0));
    let found = text_by_hand::read(&input.text, &mut words).map(|()| words).map_err(|line| (16, line));
    written == write(&input.words, usize::MAX) && found == read(&input.text, usize::MAX)
}

/// The answer and the whole slice: what was made in front, and else as it was.
fn compare_call<T: Copy + PartialEq>(what: &str, answer: Answer, expected: &Result<Vec<T>, Refusal>, slice: &[T], before: T) -> Result<(), String> {
    let made = expected.as_deref().unwrap_or(&[]);
    same(what, answer, expected.as_ref().map_or_else(|&refusal| refused(refusal), |made| accepted(made.len())))?;
    let right = |k: usize| made.get(k).copied().unwrap_or(before);
    let different = (0..slice.len()).find(|&k| slice[k] != right(k));
    same(&format!("{what}, the first place of the slice that is not as the model has it"), different, None)
}

/// Also: "Reading what was written gives the same words".
fn compare_writing(input: &Input) -> Result<u32, String> {
    let expected = write(&input.words, input.text_room);
    let mut text = vec![BYTE; input.text_room];
    let answer = library::write_text(&input.words, &mut text);
    compare_call("writing", answer, &expected, &text, BYTE)?;
    if answer.number == 0 {
        let mut words = vec![WORD; input.words.len()];
        let again = library::read_text(&text[..answer.count as usize], &mut words);
        compare_call("reading what was written", again, &Ok(input.words.clone()), &words, WORD)?;
    }
    Ok(answer.number)
}

/// Also: "each accepted text is the one the writer would give".
fn compare_reading(input: &Input) -> Result<u32, String> {
    let expected = read(&input.text, input.words_room);
    let mut words = vec![WORD; input.words_room];
    let answer = library::read_text(&input.text, &mut words);
    compare_call("reading", answer, &expected, &words, WORD)?;
    if answer.number == 0 {
        let mut text = vec![BYTE; input.text.len()];
        let again = library::write_text(&words[..answer.count as usize], &mut text);
        compare_call("writing what was read", again, &Ok(input.text.clone()), &text, BYTE)?;
    }
    Ok(answer.number)
}

//! The library beside the model: answers, and every word and cell of the buffers.
use crate::check::check;
use crate::library::{self, Answer};
use crate::plan::Plan;
use crate::rows::{cell, evaluate};
use crate::rules::rewrite;

/// What stands in a buffer before a call.
pub const WORD: u32 = 0x5a5a_5a5a;
const CELL: i64 = 0x5a5a_5a5a_5a5a_5a5a;

/// One input of the check, the rewriter and the evaluator.
#[derive(Clone, Debug)]
pub struct Input {
    pub words: Vec<u32>,
    pub room: usize,
    pub counts: Vec<u32>,
    pub cells: Vec<i64>,
    pub limit: u32,
    pub scratch: usize,
    pub out: usize,
}

pub fn same<T: PartialEq + std::fmt::Debug>(what: &str, library: T, model: T) -> Result<(), String> {
    if library == model {
        return Ok(());
    }
    Err(format!("{what}: the library has {library:?}, the model {model:?}"))
}

pub fn accepted(count: usize) -> Answer {
    Answer { number: 0, node: 0, count: count as u64 }
}

pub fn refused((number, node): (u32, u32)) -> Answer {
    Answer { number, node, count: 0 }
}

/// The numbers of the three answers, or the first difference.
pub fn compare(input: &Input) -> Result<[u32; 3], String> {
    let checked = check(&input.words);
    let answer = checked.as_ref().map_or_else(|&refusal| refused(refusal), |_| accepted(0));
    same("check", library::check(&input.words), answer)?;
    let rewritten = compare_rewriting(input, &checked)?;
    let evaluated = compare_evaluation(input, &checked)?;
    Ok([answer.number, rewritten, evaluated])
}

fn compare_rewriting(input: &Input, checked: &Result<Plan, (u32, u32)>) -> Result<u32, String> {
    let expected = checked.clone().and_then(|plan| rewrite(&plan, input.room));
    let mut out = vec![WORD; input.room];
    let answer = library::rewrite(&input.words, &mut out);
    match expected {
        Ok(words) => {
            same("rewriting", answer, accepted(words.len()))?;
            same("the new words", &out[..words.len()], &words[..])?;
            same("the rest of the output", out[words.len()..].iter().all(|&word| word == WORD), true)?;
        }
        Err(refusal) => {
            same("rewriting", answer, refused(refusal))?;
            same("the output of a refused rewriting", out.iter().all(|&word| word == WORD), true)?;
        }
    }
    Ok(answer.number)
}

fn compare_evaluation(input: &Input, checked: &Result<Plan, (u32, u32)>) -> Result<u32, String> {
    let expected = checked.clone().and_then(|plan| evaluate(&plan, &input.counts, &input.cells, input.limit, input.scratch, input.out));
    let mut scratch = vec![CELL; input.scratch];
    let mut out = vec![CELL; input.out];
    let answer = library::evaluate(&input.words, &input.counts, &input.cells, input.limit, &mut scratch, &mut out);
    let (left, written) = match expected {
        Ok(rows) => {
            same("evaluation", answer, accepted(rows.len()))?;
            (0, rows.into_iter().flatten().map(cell).collect())
        }
        Err(refusal) => {
            same("evaluation", answer, refused(refusal))?;
            (if refusal.0 <= 13 { CELL } else { 0 }, vec![])
        }
    };
    same("the rows", &out[..written.len()], &written[..])?;
    same("the rest of the output", out[written.len()..].iter().all(|&cell| cell == CELL), true)?;
    same("scratch", scratch.iter().all(|&cell| cell == left), true)?;
    Ok(answer.number)
}

//! Random inputs of the check, the rewriter and the evaluator.
use crate::compare::Input;
use crate::dice::Dice;
use crate::generate::{accepted, damaged, database, noise, targeted};
use crate::plan::Plan;
use crate::rules::rewritten;

const MOST_CELLS: usize = 60_000;

/// The cells that an accepted plan needs of scratch and of output.
pub fn needed(plan: &Plan, limit: u32) -> (usize, usize) {
    let widths = plan.widths();
    (plan.nodes.len() * limit as usize * widths.iter().max().unwrap(), limit as usize * widths.last().unwrap())
}

/// Often exactly what is needed, sometimes one less or some more.
fn about(dice: &mut Dice, needed: usize) -> usize {
    match dice.below(10) {
        0 => needed.saturating_sub(1),
        1 => needed + dice.below(9),
        _ => needed,
    }
}

/// An accepted plan with a database, a limit and buffers.
fn whole(dice: &mut Dice) -> (Plan, Input) {
    let size = dice.pick(&[2, 3, 5, 5, 8, 8, 12, 20, 40]);
    let depth = dice.pick(&[1, 2, 4, 4, 10]);
    let plan = accepted(dice, size, depth);
    let (counts, cells) = database(dice, &plan.tables);
    let mut limit = dice.pick(&[1, 2, 3, 5, 10, 30, 60]);
    while limit > 1 && needed(&plan, limit).0 > MOST_CELLS {
        limit /= 2;
    }
    let (scratch, out) = needed(&plan, limit);
    let new = rewritten(&plan).words().len();
    let room = match dice.below(5) {
        0 => dice.below(new + 1),
        1 => new + dice.below(9),
        _ => about(dice, new),
    };
    let input = Input { words: plan.words(), room, counts, cells, limit, scratch: about(dice, scratch), out: about(dice, out) };
    (plan, input)
}

/// Counts, cells or a limit that are not those of the plan.
fn spoiled(dice: &mut Dice, input: &mut Input) {
    match dice.below(6) {
        0 => input.counts.truncate(dice.below(input.counts.len())),
        1 => input.counts.push(0),
        2 => input.cells.push(dice.word() as i64),
        3 if !input.cells.is_empty() => {
            let place = dice.below(input.cells.len());
            input.cells[place] = dice.pick(&[1 << 47, -(1 << 47), i64::MAX, i64::MIN + 1, i64::MIN]);
        }
        4 => input.limit = dice.pick(&[0, 4097, u32::MAX]),
        _ => {
            let place = dice.below(input.counts.len());
            input.counts[place] = dice.pick(&[0, 1, 4096, 4097, u32::MAX]);
        }
    }
}

/// Two of three whole, the others noise, damaged, with one thing wrong, or with a database that doesn't fit.
pub fn random(dice: &mut Dice) -> Input {
    let (plan, mut input) = whole(dice);
    match dice.below(20) {
        0 => input.words = noise(dice),
        1..=4 => input.words = damaged(dice, &input.words),
        5 | 6 => spoiled(dice, &mut input),
        7 => input.words = targeted(dice, &plan).words(),
        _ => {}
    }
    input
}

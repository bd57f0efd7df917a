//! Compares the library with a model of documents 01 and 02, and measures it.
mod bench;
mod check;
mod compare;
mod compare_texts;
mod dice;
mod generate;
mod inputs;
mod library;
mod lists;
mod plan;
mod rows;
mod rules;
mod shrink;
mod text;
mod text_by_hand;
mod texts;

use compare::{compare, Input};
use dice::Dice;
use std::collections::BTreeMap;
use std::time::{Duration, Instant};

const HELP: &str = "harness test                  200,000 inputs from a fixed seed, among them every refusal of each function; the last line is 'N compared, 0 different'
harness fuzz SECONDS [SEED]   inputs for so long, from a seed of the clock or this one
harness bench                 a table of times, beside hand-written Rust and SQLite";

const PLANS: usize = 200_000;

const FUNCTIONS: [&str; 5] = ["check", "rewrite", "evaluate", "write text", "read text"];

/// What each entry point answered, by number of refusal.
#[derive(Default)]
struct Tally([BTreeMap<u32, usize>; 5]);

impl Tally {
    fn add(&mut self, numbers: impl Iterator<Item = u32>) {
        for (counts, number) in self.0.iter_mut().zip(numbers) {
            *counts.entry(number).or_default() += 1;
        }
    }

    fn print(&self) {
        for (name, counts) in FUNCTIONS.iter().zip(&self.0) {
            println!("{name}, by number of refusal: {counts:?}");
        }
    }

    /// The numbers of documents 01 and 02 that a function never answered, acceptance (0) among them.
    fn unmet(&self) -> Vec<(&str, u32)> {
        let own = [(0..8, 8..8), (0..8, 8..10), (0..8, 10..16), (0..3, 17..18), (0..1, 16..18)];
        let mut unmet = vec![];
        for ((name, counts), (first, then)) in FUNCTIONS.iter().zip(&self.0).zip(own) {
            unmet.extend(first.chain(then).filter(|number| !counts.contains_key(number)).map(|number| (*name, number)));
        }
        unmet
    }
}

/// Also evaluates the rewriting: its rows are those of the plan, in order, where neither is refused.
fn examine(input: &Input) -> Result<[u32; 3], String> {
    let numbers = compare(input)?;
    let Ok(plan) = check::check(&input.words) else { return Ok(numbers) };
    let Ok(words) = rules::rewrite(&plan, usize::MAX) else { return Ok(numbers) };
    let new = check::check(&words).map_err(|refusal| format!("the rewriting is refused with {refusal:?}"))?;
    let limit = input.limit.clamp(1, 4096);
    let (scratch, out) = inputs::needed(&new, limit);
    if scratch > 400_000 {
        return Ok(numbers);
    }
    compare(&Input { words, limit, scratch, out, ..input.clone() }).map_err(|text| format!("of the rewriting, {text}"))?;
    let rows = |plan| rows::evaluate(plan, &input.counts, &input.cells, limit, usize::MAX, usize::MAX);
    match (rows(&plan), rows(&new)) {
        (Ok(a), Ok(b)) if a != b => Err(format!("the plan's rows are {a:?}, its rewriting's {b:?}")),
        _ => Ok(numbers),
    }
}

fn report(seed: u64, input: &Input, text: &str) -> ! {
    println!("seed {seed}: {text}");
    let small = shrink::shrunk(input, |input| examine(input).is_err());
    println!("the smallest found: {small:?}");
    if let Ok(plan) = check::check(&small.words) {
        println!("tables {:?}", plan.tables);
        plan.nodes.iter().enumerate().for_each(|(n, node)| println!("{n} {node:?}"));
    }
    println!("{}", examine(&small).unwrap_err());
    std::process::exit(1);
}

fn report_texts(seed: u64, input: &texts::Input, text: &str) -> ! {
    println!("seed {seed}: {text}");
    let small = shrink::shrunk_texts(input, |input| compare_texts::compare(input).is_err());
    println!("the smallest found: {small:?}");
    println!("its text: {}", small.text.escape_ascii());
    println!("{}", compare_texts::compare(&small).unwrap_err());
    std::process::exit(1);
}

/// Each input has a seed of its own, so that one number brings a failure back.
fn run(first: u64, goes_on: impl Fn(u64) -> bool) -> Tally {
    let mut tally = Tally::default();
    let mut seed = first;
    while goes_on(seed) {
        let mut dice = Dice::new(seed);
        let input = inputs::random(&mut dice);
        let texts = texts::random(&mut dice, &input.words);
        match (examine(&input), compare_texts::compare(&texts)) {
            (Ok(first), Ok(then)) => tally.add(first.into_iter().chain(then)),
            (Err(text), _) => report(seed, &input, &text),
            (_, Err(text)) => report_texts(seed, &texts, &text),
        }
        seed += 1;
    }
    tally.print();
    println!("{} compared, 0 different", seed - first);
    tally
}

/// The fixed inputs are worth little where they miss a refusal.
fn test() {
    let tally = run(1, |seed| seed <= PLANS as u64);
    let unmet = tally.unmet();
    if !unmet.is_empty() {
        println!("never answered: {unmet:?}");
        std::process::exit(1);
    }
}

fn main() {
    let words: Vec<String> = std::env::args().skip(1).collect();
    let words: Vec<&str> = words.iter().map(String::as_str).collect();
    match words[..] {
        ["test"] => test(),
        ["fuzz", seconds, ref rest @ ..] if rest.len() <= 1 => {
            let clock = std::time::SystemTime::now().duration_since(std::time::UNIX_EPOCH).unwrap().as_nanos() as u64;
            let seed = rest.first().map_or(clock, |text| text.parse().expect("SEED is a number"));
            let end = Instant::now() + Duration::from_secs(seconds.parse().expect("SECONDS is a number"));
            println!("from seed {seed}");
            drop(run(seed, |_| Instant::now() < end));
        }
        ["bench"] => bench::bench(),
        _ => {
            println!("{HELP}");
            std::process::exit(2);
        }
    }
}

//! Times of the library, of Rust written by hand, and of SQLite, all in one run on one core.
use crate::inputs::needed;
use crate::library;
use crate::lists::{all, scrub_list, List};
use crate::plan::Plan;
use crate::rules::rewritten;
use crate::text_by_hand;
use std::hint::black_box;
use std::io::Write;
use std::process::{Command, Stdio};
use std::time::{Duration, Instant};

const SIZES: [usize; 3] = [256, 1024, 4096];
/// The rewritten plans hold a domain beside a table: few rows fit R.
const SMALL: usize = 60;

/// Milliseconds of one call: the best of several for short ones.
fn milliseconds(mut call: impl FnMut()) -> f64 {
    let begin = Instant::now();
    let mut best = f64::MAX;
    let mut rounds = 0;
    while rounds < 3 || (begin.elapsed() < Duration::from_millis(300) && rounds < 1000) {
        let start = Instant::now();
        call();
        best = best.min(start.elapsed().as_secs_f64() * 1000.0);
        rounds += 1;
        if begin.elapsed() > Duration::from_secs(5) {
            break;
        }
    }
    best
}

struct Lent {
    words: Vec<u32>,
    counts: Vec<u32>,
    cells: Vec<i64>,
    limit: u32,
    scratch: Vec<i64>,
    out: Vec<i64>,
}

impl Lent {
    fn new(plan: &Plan, tables: &[Vec<Vec<i64>>], limit: u32) -> Lent {
        let (scratch, out) = needed(plan, limit);
        Lent {
            words: plan.words(),
            counts: tables.iter().map(|rows| rows.len() as u32).collect(),
            cells: tables.iter().flatten().flatten().copied().collect(),
            limit,
            scratch: vec![0; scratch],
            out: vec![0; out],
        }
    }

    fn evaluate(&mut self) -> library::Answer {
        library::evaluate(&self.words, &self.counts, &self.cells, self.limit, &mut self.scratch, &mut self.out)
    }
}

/// The evaluation's time, once its rows are those written by hand; none where it is refused.
fn evaluated(plan: &Plan, list: &List, n: usize, limit: u32) -> Option<f64> {
    let tables = (list.tables)(n);
    let mut lent = Lent::new(plan, &tables, limit);
    let answer = lent.evaluate();
    if answer.number != 0 {
        return None;
    }
    let expected: Vec<i64> = (list.by_hand)(&tables).into_iter().flatten().collect();
    assert!(lent.out[..expected.len()] == expected, "{}: other rows than by hand", list.name);
    Some(milliseconds(|| {
        black_box(lent.evaluate());
    }))
}

fn by_hand(list: &List, n: usize) -> f64 {
    let tables = (list.tables)(n);
    milliseconds(|| {
        black_box((list.by_hand)(black_box(&tables)));
    })
}

/// The query's time as SQLite's shell tells it, without an index; none where there is no such program.
fn by_sqlite(list: &List, n: usize) -> Option<f64> {
    let mut script = String::from("PRAGMA automatic_index=off;\n.output /dev/null\n");
    for (name, rows) in ["a", "b", "c"].iter().zip((list.tables)(n)) {
        let columns = ["x", "y"][..rows[0].len()].join(", ");
        script += &format!("CREATE TABLE {name} ({columns});\nBEGIN;\n");
        for row in rows {
            let values: Vec<String> = row.iter().map(i64::to_string).collect();
            script += &format!("INSERT INTO {name} VALUES ({});\n", values.join(", "));
        }
        script += "COMMIT;\n";
    }
    script += &format!(".output stdout\n.timer on\nSELECT count(*) FROM ({});\n", list.sql);
    let mut shell = Command::new("sqlite3").arg(":memory:").stdin(Stdio::piped()).stdout(Stdio::piped()).spawn().ok()?;
    shell.stdin.take()?.write_all(script.as_bytes()).ok()?;
    let text = String::from_utf8(shell.wait_with_output().ok()?.stdout).ok()?;
    let seconds: f64 = text.split("real ").nth(1)?.split_whitespace().next()?.parse().ok()?;
    Some(seconds * 1000.0)
}

fn shown(time: Option<f64>) -> String {
    match time {
        None => "-".into(),
        Some(time) if time < 1.0 => format!("{time:.4}"),
        Some(time) => format!("{time:.1}"),
    }
}

fn row(cells: &[String]) {
    println!("|{}|", cells.join("|"));
}

fn head(cells: &[&str]) {
    row(&cells.iter().map(|cell| cell.to_string()).collect::<Vec<_>>());
    row(&vec!["-".to_string(); cells.len()]);
}

/// Writing and reading one table's text, once both are as by hand.
fn text_row(name: &str, table: &[u32]) {
    let (mut text, mut words) = (vec![0; 170_956], vec![0; 15_560]);
    let (mut text_by_hand, mut words_by_hand) = (vec![], vec![]);
    let bytes = library::write_text(table, &mut text).count as usize;
    text.truncate(bytes);
    text_by_hand::write(table, &mut text_by_hand).unwrap();
    assert!(text == text_by_hand, "{name}: another text than by hand");
    let count = library::read_text(&text, &mut words).count as usize;
    text_by_hand::read(&text, &mut words_by_hand).unwrap();
    assert!(words[..count] == words_by_hand && words_by_hand == table, "{name}: other words than by hand");
    let write = milliseconds(|| {
        black_box(library::write_text(black_box(table), &mut text));
    });
    let write_by_hand = milliseconds(|| {
        black_box(text_by_hand::write(black_box(table), &mut text_by_hand)).unwrap();
    });
    let read = milliseconds(|| {
        black_box(library::read_text(black_box(&text), &mut words));
    });
    let read_by_hand = milliseconds(|| {
        black_box(text_by_hand::read(black_box(&text), &mut words_by_hand)).unwrap();
    });
    let times = [write, write_by_hand, write / write_by_hand, read, read_by_hand, read / read_by_hand];
    row(&[vec![name.into(), bytes.to_string()], times.map(|time| shown(Some(time))).to_vec()].concat());
}

fn texts() {
    println!("\nTexts: written from words, and read back.\n");
    head(&["table", "bytes", "write", "by hand", "times by hand", "read", "by hand", "times by hand"]);
    text_row("S, scrubbed under twice", &scrub_list().plan.words());
    text_row("the longest text", &text_by_hand::longest());
}

pub fn bench() {
    println!("Milliseconds, the best of several calls.\n");
    head(&["plan", "nodes", "rewritten", "check", "rewrite"]);
    for list in all() {
        let words = list.plan.words();
        let mut out = vec![0; 15_560];
        let check = milliseconds(|| {
            black_box(library::check(black_box(&words)));
        });
        let rewrite = milliseconds(|| {
            black_box(library::rewrite(black_box(&words), &mut out));
        });
        row(&[list.name.into(), list.plan.nodes.len().to_string(), rewritten(&list.plan).nodes.len().to_string(), shown(Some(check)), shown(Some(rewrite))]);
    }
    println!("\nEvaluation as written; pairs are those of rows that the plan compares.\n");
    head(&["plan", "rows", "evaluate", "by hand", "times by hand", "SQLite", "times faster than SQLite", "million pairs a second"]);
    for list in all() {
        for n in SIZES {
            let time = evaluated(&list.plan, &list, n, n as u32);
            let (hand, sqlite) = (by_hand(&list, n), by_sqlite(&list, n));
            let ratio = |a: Option<f64>, b: Option<f64>| Some(a? / b?);
            let pairs = time.map(|time| (list.pairs)(n) as f64 / time / 1000.0);
            row(&[list.name.into(), n.to_string(), shown(time), shown(Some(hand)), shown(ratio(time, Some(hand))), shown(sqlite), shown(ratio(sqlite, time)), shown(pairs)]);
        }
    }
    println!("\nAs written and rewritten, on {SMALL} rows: a rewritten plan holds its domain beside a table, so more rows pass R.\n");
    head(&["plan", "as written", "rewritten"]);
    for list in all() {
        let new = rewritten(&list.plan);
        row(&[list.name.into(), shown(evaluated(&list.plan, &list, SMALL, 4096)), shown(evaluated(&new, &list, SMALL, 4096))]);
    }
    texts();
    if by_sqlite(&all()[0], 1).is_none() {
        println!("\nSQLite is not measured: there is no program sqlite3.");
    }
}

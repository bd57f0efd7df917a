//! A smaller input that still differs.
use crate::check::{check, header_and_limits};
use crate::compare::Input;
use crate::inputs::needed;
use crate::plan::{header, Plan};
use crate::texts;

/// Takes away as long as what is left still fails.
pub fn shrunk(input: &Input, fails: impl Fn(&Input) -> bool) -> Input {
    least(input, smaller, size, fails)
}

pub fn shrunk_texts(input: &texts::Input, fails: impl Fn(&texts::Input) -> bool) -> texts::Input {
    let size = |input: &texts::Input| (input.text.len() + input.words.len(), input.words.iter().filter(|&&word| word != 0).count(), input.text_room + input.words_room);
    least(input, smaller_texts, size, fails)
}

fn least<T: Clone, S: PartialOrd>(input: &T, smaller: fn(&T) -> Vec<T>, size: impl Fn(&T) -> S, fails: impl Fn(&T) -> bool) -> T {
    let mut best = input.clone();
    loop {
        match smaller(&best).into_iter().find(|candidate| size(candidate) < size(&best) && fails(candidate)) {
            Some(candidate) => best = candidate,
            None => return best,
        }
    }
}

fn size(input: &Input) -> (usize, usize, u64, usize) {
    let numbers = input.cells.iter().map(|cell| cell.unsigned_abs() >> 3).fold(0, u64::saturating_add);
    (input.words.len(), input.cells.len(), numbers, input.scratch + input.out + input.room)
}

fn smaller(input: &Input) -> Vec<Input> {
    let mut candidates = vec![];
    if let Ok(plan) = check(&input.words) {
        for plan in smaller_plans(&plan) {
            let (scratch, out) = needed(&plan, input.limit.clamp(1, 4096));
            candidates.push(Input { words: plan.words(), scratch, out, ..input.clone() });
            candidates.push(Input { words: plan.words(), ..input.clone() });
        }
        candidates.extend(fewer_rows(input, &plan));
    }
    for place in 0..input.cells.len() {
        let mut candidate = input.clone();
        candidate.cells[place] = 1;
        candidates.push(candidate);
    }
    candidates.push(Input { words: input.words[..input.words.len().saturating_sub(1)].to_vec(), ..input.clone() });
    candidates
}

fn smaller_plans(plan: &Plan) -> Vec<Plan> {
    let mut plans = vec![];
    for (n, node) in plan.nodes.iter().enumerate() {
        for input in node.inputs() {
            plans.push(bypassed(plan, n, input));
        }
        for k in 0..node.items.len() {
            let mut less = plan.clone();
            less.nodes[n].items.remove(k);
            plans.push(less);
        }
    }
    plans
}

/// Node n's users read another one instead, and what nobody uses then is left out.
fn bypassed(plan: &Plan, n: usize, other: usize) -> Plan {
    let mut nodes = plan.nodes.clone();
    for node in &mut nodes {
        if node.operator != 1 && node.left == n {
            node.left = other;
        }
        if node.has_right() && node.right == n {
            node.right = other;
        }
    }
    if n + 1 == nodes.len() {
        nodes.truncate(other + 1);
    }
    let mut used = vec![false; nodes.len()];
    *used.last_mut().unwrap() = true;
    for k in (0..nodes.len()).rev() {
        if used[k] {
            nodes[k].inputs().into_iter().for_each(|input| used[input] = true);
        }
    }
    let place = |k: usize| used[..k].iter().filter(|&&is| is).count();
    for node in &mut nodes {
        if node.operator != 1 {
            node.left = place(node.left);
        }
        if node.has_right() {
            node.right = place(node.right);
        }
    }
    let nodes = nodes.into_iter().zip(&used).filter(|(_, &is)| is).map(|(node, _)| node).collect();
    Plan { tables: plan.tables.clone(), nodes }
}

fn fewer_rows(input: &Input, plan: &Plan) -> Vec<Input> {
    let mut candidates = vec![];
    let mut from = 0;
    for (t, &width) in plan.tables.iter().enumerate() {
        let (width, count) = (width as usize, input.counts.get(t).copied().unwrap_or(0) as usize);
        for row in 0..count {
            let start = from + row * width;
            if start + width <= input.cells.len() {
                let mut candidate = input.clone();
                candidate.cells.drain(start..start + width);
                candidate.counts[t] -= 1;
                candidates.push(candidate);
            }
        }
        from += width * count;
    }
    candidates
}

fn smaller_texts(input: &texts::Input) -> Vec<texts::Input> {
    let mut candidates = vec![texts::Input { words: vec![], ..input.clone() }, texts::Input { text: vec![], ..input.clone() }];
    candidates.extend(smaller_words(&input.words).into_iter().map(|words| texts::Input { words, ..input.clone() }));
    candidates.extend(smaller_text(&input.text).into_iter().map(|text| texts::Input { text, ..input.clone() }));
    candidates.push(texts::Input { text_room: input.text_room / 2, ..input.clone() });
    candidates.push(texts::Input { words_room: input.words_room / 2, ..input.clone() });
    candidates
}

/// Without the last item, and with a 0 behind the widths.
fn smaller_words(words: &[u32]) -> Vec<Vec<u32>> {
    let mut candidates = vec![];
    if header_and_limits(words).is_ok() && words.len() < 2000 {
        if words[5] > 0 {
            let mut less = words[..words.len() - 7].to_vec();
            less[..8].copy_from_slice(&header(words[1], words[3], words[5] - 1));
            candidates.push(less);
        }
        for place in 8 + words[1] as usize..words.len() {
            let mut less = words.to_vec();
            less[place] = 0;
            candidates.push(less);
        }
    }
    candidates
}

/// Half of it, and without each line or byte of a short one.
fn smaller_text(text: &[u8]) -> Vec<Vec<u8>> {
    let mut candidates = vec![text[..text.len() / 2].to_vec()];
    if text.len() < 2000 {
        let lines: Vec<&[u8]> = text.split_inclusive(|&byte| byte == b'\n').collect();
        candidates.extend((0..lines.len()).map(|k| [&lines[..k], &lines[k + 1..]].concat().concat()));
        candidates.extend((0..text.len()).map(|k| [&text[..k], &text[k + 1..]].concat()));
    }
    candidates
}

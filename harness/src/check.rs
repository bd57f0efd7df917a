//! A model of the check: the numbers of refusal 1 to 7, as document 01 has them.
use crate::plan::{Item, Node, Plan, Term};

pub type Refusal = (u32, u32);

const HEADER: Refusal = (1, 0);
const LIMITS: Refusal = (2, 0);

/// The plan that the words stand for, or the refusal.
pub fn check(words: &[u32]) -> Result<Plan, Refusal> {
    header_and_limits(words)?;
    let tables = words[1] as usize;
    let plan = Plan { tables: words[8..8 + tables].to_vec(), nodes: nodes(words)? };
    let uses = uses(&plan);
    let lowest = |number: u32, fault: &dyn Fn(usize) -> bool| match (0..plan.nodes.len()).find(|&n| fault(n)) {
        Some(n) => Err((number, n as u32)),
        None => Ok(()),
    };
    let widths = plan.widths();
    let reads = plan.reads();
    lowest(4, &|n| n + 1 < plan.nodes.len() && uses[n] == 0)?;
    lowest(5, &|n| widths[n] > 64)?;
    lowest(6, &|n| !reads[n].is_empty() && uses[n] > 1)?;
    let around = around(&plan, &widths, &reads);
    lowest(7, &|n| !columns_exist(&plan.nodes[n], &widths, &around[n]))?;
    Ok(plan)
}

/// The numbers 1 and 2 alone.
pub fn header_and_limits(words: &[u32]) -> Result<(), Refusal> {
    header(words)?;
    if !(1..=16).contains(&words[1]) || !(1..=256).contains(&words[3]) || words[5] > 2000 {
        return Err(LIMITS);
    }
    if words[8..8 + words[1] as usize].iter().any(|width| !(1..=64).contains(width)) {
        return Err(LIMITS);
    }
    Ok(())
}

/// "slice under 8 words, or total, an offset or the last header word wrong"; "counts are compared as whole numbers before limits"
fn header(words: &[u32]) -> Result<(), Refusal> {
    if words.len() < 8 {
        return Err(HEADER);
    }
    let word = |k: usize| words[k] as u64;
    let nodes_at = 8 + word(1);
    let items_at = nodes_at + 6 * word(3);
    let total = items_at + 7 * word(5);
    let right = word(0) == words.len() as u64 && word(0) == total && word(2) == 8 && word(4) == nodes_at && word(6) == items_at && word(7) == 0;
    if right { Ok(()) } else { Err(HEADER) }
}

fn nodes(words: &[u32]) -> Result<Vec<Node>, Refusal> {
    let (tables, count, items) = (words[1], words[3], words[5]);
    let nodes_at = 8 + tables as usize;
    let items_at = nodes_at + 6 * count as usize;
    let mut nodes = vec![];
    let mut before = 0;
    for n in 0..count {
        let node = &words[nodes_at + 6 * n as usize..][..6];
        let malformed = Err((3, n));
        let [operator, left, right, kind, first, own] = node.try_into().unwrap();
        let is_join = operator == 5 || operator == 8;
        let has_right = is_join || operator == 7;
        let left_right = if operator == 1 { left < tables } else { left < n };
        let right_right = if has_right { right < n } else { right == 0 };
        let kind_right = if is_join { (1..=4).contains(&kind) } else { kind == 0 };
        if !(1..=8).contains(&operator) || !left_right || !right_right || !kind_right || first != before {
            return malformed;
        }
        let after = before as u64 + own as u64;
        if after > items as u64 || (n + 1 == count && after < items as u64) {
            return malformed;
        }
        let mut list = vec![];
        for j in before..before + own {
            match item(&words[items_at + 7 * j as usize..][..7]) {
                Some(item) => list.push(item),
                None => return malformed,
            }
        }
        if !sorts_right(operator, &list) {
            return malformed;
        }
        before += own;
        nodes.push(Node { operator, left: left as usize, right: right as usize, kind, items: list });
    }
    Ok(nodes)
}

/// The items of each operator: "conjuncts", "one computation", "1 or more output columns", "keys, then aggregates", ..
fn sorts_right(operator: u32, items: &[Item]) -> bool {
    let aggregates_last = |first: fn(&Item) -> bool| {
        let lead = items.iter().take_while(|item| first(item)).count();
        items[lead..].iter().all(Item::is_aggregate)
    };
    match operator {
        1 => items.is_empty(),
        3 => items.len() == 1 && (8..=10).contains(&items[0].tag),
        4 => !items.is_empty() && items.iter().all(|item| item.tag == 12),
        6 => !items.is_empty() && aggregates_last(Item::is_key),
        7 => items.last().is_some_and(Item::is_aggregate) && aggregates_last(Item::is_conjunct),
        _ => items.iter().all(Item::is_conjunct),
    }
}

fn item(words: &[u32]) -> Option<Item> {
    let (first, second) = (&words[1..4], &words[4..7]);
    let unused = |words: &[u32]| (words == [0, 0, 0]).then_some(Term::Unused);
    let column = |words: &[u32]| (words[..2] == [0, 0]).then_some(Term::Local(words[2]));
    let (first, second) = match words[0] {
        1..=7 | 9 | 10 => (term(first)?, term(second)?),
        8 => (term(first)?, unused(second)?),
        11 | 12 | 14 | 15 | 16 => (column(first)?, unused(second)?),
        13 => (unused(first)?, unused(second)?),
        _ => return None,
    };
    Some(Item { tag: words[0], first, second })
}

/// "0,0,position; 1,level,position with level 0..7; 2,0,constant; 3,0,0"
fn term(words: &[u32]) -> Option<Term> {
    match *words {
        [0, 0, position] => Some(Term::Local(position)),
        [1, level, position] if level <= 7 => Some(Term::Outer(level, position)),
        [2, 0, number] => Some(Term::Constant(number as i32)),
        [3, 0, 0] => Some(Term::Null),
        _ => None,
    }
}

fn uses(plan: &Plan) -> Vec<usize> {
    let mut uses = vec![0; plan.nodes.len()];
    for input in plan.nodes.iter().flat_map(Node::inputs) {
        uses[input] += 1;
    }
    uses
}

/// For each node the widths of the left rows around it, the nearest first; around a closed node there are none.
fn around(plan: &Plan, widths: &[usize], reads: &[std::collections::BTreeSet<(u32, u32)>]) -> Vec<Vec<usize>> {
    let mut around = vec![vec![]; plan.nodes.len()];
    for (n, node) in plan.nodes.iter().enumerate().rev() {
        for (place, input) in node.inputs().into_iter().enumerate() {
            if !reads[input].is_empty() {
                around[input] = around[n].clone();
                if node.operator == 8 && place == 1 {
                    around[input].insert(0, widths[node.left]);
                }
            }
        }
    }
    around
}

/// "Local positions count in the input's row; for conjuncts of 5, 7, 8 in left then right; for groupjoin aggregates in the right row."
fn columns_exist(node: &Node, widths: &[usize], around: &[usize]) -> bool {
    if node.operator == 1 {
        return true;
    }
    let left = widths[node.left];
    let right = if node.has_right() { widths[node.right] } else { 0 };
    node.items.iter().all(|item| {
        let width = if node.operator == 7 && item.is_aggregate() { right } else { left + right };
        [item.first, item.second].into_iter().all(|term| match term {
            Term::Local(position) => (position as usize) < width,
            Term::Outer(level, position) => around.get(level as usize).is_some_and(|&width| (position as usize) < width),
            _ => true,
        })
    })
}

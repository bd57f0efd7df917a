//! Random plans that the check accepts, damaged ones, and random databases.
use crate::dice::Dice;
use crate::plan::{header, Item, Node, Plan, Term, ANTI, INNER, LEFT_OUTER, SEMI};
use crate::rows::{LARGEST, NULL};
use std::collections::BTreeSet;

const WIDEST: usize = 64;
const CONSTANTS: [i32; 7] = [0, 1, -1, 2, 7, i32::MIN, i32::MAX];
const NUMBERS: [i64; 14] = [0, 1, 1, 2, 2, 3, -1, 7, LARGEST, -LARGEST, LARGEST - 1, i32::MAX as i64, i32::MIN as i64, 1 << 46];

struct Grower<'a> {
    dice: &'a mut Dice,
    plan: Plan,
    widths: Vec<usize>,
    reads: Vec<BTreeSet<(u32, u32)>>,
    outer_share: usize,
    again_share: usize,
    dependent_share: usize,
    depth: usize,
}

/// A plan with about so many nodes, whose dependent joins nest up to so deep.
pub fn accepted(dice: &mut Dice, size: usize, depth: usize) -> Plan {
    let widest = dice.pick(&[1, 2, 3, 5, 5, 12, 30, 63, WIDEST]);
    let tables = (0..dice.pick(&[1, 2, 3, 16])).map(|_| dice.between(1, widest) as u32).collect();
    let (outer_share, again_share, dependent_share) = (dice.pick(&[10, 30, 60]), dice.pick(&[0, 20, 50]), dice.pick(&[20, 45, 70]));
    let plan = Plan { tables, nodes: vec![] };
    let mut grower = Grower { dice, plan, widths: vec![], reads: vec![], outer_share, again_share, dependent_share, depth };
    grower.grow(&[], size);
    let plan = grower.plan;
    shuffled(dice, plan)
}

impl Grower<'_> {
    fn add(&mut self, node: Node) -> usize {
        self.plan.nodes.push(node);
        self.widths = self.plan.widths();
        self.reads = self.plan.reads();
        self.plan.nodes.len() - 1
    }

    /// A term over a row of this width, with the widths of the rows around, the nearest first.
    fn term(&mut self, width: usize, around: &[usize]) -> Term {
        if !around.is_empty() && self.dice.chance(self.outer_share) {
            let level = self.dice.below(around.len().min(8));
            return Term::Outer(level as u32, self.column(around[level]));
        }
        match self.dice.below(12) {
            0 => Term::Null,
            1 => Term::Constant(self.dice.pick(&CONSTANTS)),
            _ => Term::Local(self.column(width)),
        }
    }

    /// A column, often the last.
    fn column(&mut self, width: usize) -> u32 {
        if self.dice.chance(30) { width as u32 - 1 } else { self.dice.below(width) as u32 }
    }

    fn conjuncts(&mut self, width: usize, around: &[usize]) -> Vec<Item> {
        let count = self.dice.below(4);
        (0..count).map(|_| Item::two(self.dice.between(1, 7) as u32, self.term(width, around), self.term(width, around))).collect()
    }

    fn aggregates(&mut self, width: usize, most: usize) -> Vec<Item> {
        let count = self.dice.between(1, most.min(3));
        let one = |grower: &mut Self| match grower.dice.between(13, 16) as u32 {
            13 => Item::one(13, Term::Unused),
            tag => Item::one(tag, Term::Local(grower.column(width))),
        };
        (0..count).map(|_| one(self)).collect()
    }

    fn grow(&mut self, around: &[usize], size: usize) -> usize {
        let closed: Vec<usize> = (0..self.reads.len()).filter(|&n| self.reads[n].is_empty()).collect();
        let share = if size <= 1 { 50 } else { self.again_share };
        if !around.is_empty() && !closed.is_empty() && self.dice.chance(share) {
            return self.dice.pick(&closed);
        }
        if size <= 1 {
            let table = self.dice.below(self.plan.tables.len());
            return self.add(Node::scan(table));
        }
        if around.len() < self.depth && self.dice.chance(self.dependent_share) {
            return self.two_inputs(8, around, size - 1);
        }
        match self.dice.pick(&[2, 3, 4, 5, 6, 7]) {
            operator @ (5 | 7) => self.two_inputs(operator, around, size - 1),
            operator => self.one_input(operator, around, size - 1),
        }
    }

    fn one_input(&mut self, operator: u32, around: &[usize], size: usize) -> usize {
        let left = self.grow(around, size);
        let width = self.widths[left];
        let items = match operator {
            3 if width < WIDEST => match self.dice.between(8, 10) as u32 {
                8 => vec![Item::one(8, self.term(width, around))],
                tag => vec![Item::two(tag, self.term(width, around), self.term(width, around))],
            },
            4 => (0..self.dice.between(1, (width + 1).min(WIDEST))).map(|_| Item::one(12, Term::Local(self.column(width)))).collect(),
            6 => {
                let keys = self.dice.below(3);
                let mut items: Vec<Item> = (0..keys).map(|_| Item::one(11, Term::Local(self.column(width)))).collect();
                if keys == 0 || self.dice.chance(70) {
                    items.extend(self.aggregates(width, 3));
                }
                items
            }
            _ => {
                let conjuncts = self.conjuncts(width, around);
                return self.add(Node::over_one(2, left, conjuncts));
            }
        };
        self.add(Node::over_one(operator, left, items))
    }

    fn two_inputs(&mut self, operator: u32, around: &[usize], size: usize) -> usize {
        let most = if self.dice.chance(50) { size.min(2) } else { size };
        let share = self.dice.between(0, most);
        let left = self.grow(around, share);
        let width = self.widths[left];
        let inside: Vec<usize> = if operator == 8 { [&[width], around].concat() } else { around.to_vec() };
        let right = self.grow(&inside, size - share);
        let both = width + self.widths[right];
        let mut items = self.conjuncts(both, around);
        if operator == 7 && width < WIDEST {
            items.extend(self.aggregates(self.widths[right], WIDEST - width));
            return self.add(Node::over_two(7, left, right, 0, items));
        }
        let kind = if both <= WIDEST { self.dice.pick(&[INNER, LEFT_OUTER, INNER, LEFT_OUTER, SEMI, ANTI]) } else { self.dice.pick(&[SEMI, ANTI]) };
        self.add(Node::over_two(if operator == 8 { 8 } else { 5 }, left, right, kind, items))
    }
}

/// The nodes in another order in which inputs come first; the root stays last, since all others are below it.
fn shuffled(dice: &mut Dice, plan: Plan) -> Plan {
    let mut places = vec![None; plan.nodes.len()];
    let mut order = vec![];
    while order.len() < plan.nodes.len() {
        let ready: Vec<usize> = (0..plan.nodes.len()).filter(|&n| places[n].is_none() && plan.nodes[n].inputs().iter().all(|&i| places[i].is_some())).collect();
        let next = dice.pick(&ready);
        places[next] = Some(order.len());
        order.push(next);
    }
    let renumbered = |n: &usize| {
        let mut node = plan.nodes[*n].clone();
        if node.operator != 1 {
            node.left = places[node.left].unwrap();
        }
        if node.has_right() {
            node.right = places[node.right].unwrap();
        }
        node
    };
    Plan { tables: plan.tables.clone(), nodes: order.iter().map(renumbered).collect() }
}

/// Words that are changed in one to three places, or cut, or made longer.
pub fn damaged(dice: &mut Dice, words: &[u32]) -> Vec<u32> {
    let mut words = words.to_vec();
    match dice.below(12) {
        0 => words.truncate(dice.below(words.len())),
        1 => words.push(dice.word() as u32),
        _ => {
            for _ in 0..dice.between(1, 3) {
                let place = damaged_place(dice, &words);
                words[place] = match dice.below(6) {
                    0 => dice.word() as u32,
                    1 => words[place].wrapping_add(1),
                    2 => words[place].wrapping_sub(1),
                    3 => dice.pick(&[0, 16, 17, 64, 65, 256, 257, 2000, 2001, u32::MAX]),
                    _ => dice.below(20) as u32,
                };
            }
        }
    }
    words
}

/// A word of the header, a width, a node or an item, each about as often.
fn damaged_place(dice: &mut Dice, words: &[u32]) -> usize {
    let (nodes, items) = (words[4] as usize, words[6] as usize);
    let parts = [(0, 8), (8, nodes), (nodes, items), (nodes, items), (items, words.len()), (items, words.len())];
    let (from, to) = dice.pick(&parts);
    if from < to && to <= words.len() { dice.between(from, to - 1) } else { dice.below(words.len()) }
}

/// An accepted plan with one thing wrong, so that refusal 4, 5, 6 or 7 is met.
pub fn targeted(dice: &mut Dice, plan: &Plan) -> Plan {
    let mut plan = plan.clone();
    let root = plan.nodes.len() - 1;
    let open: Vec<usize> = (0..root).filter(|&n| !plan.reads()[n].is_empty()).collect();
    match dice.below(4) {
        0 => {
            plan.nodes.push(Node::scan(0));
            plan.nodes.push(Node::over_one(2, root, vec![]));
        }
        1 => plan.nodes.push(Node::over_one(4, root, vec![Item::one(12, Term::Local(0)); dice.between(64, 66)])),
        2 if !open.is_empty() => {
            let again = dice.pick(&open);
            plan.nodes.push(Node::over_two(dice.pick(&[5, 8]), root, again, SEMI, vec![]));
        }
        _ => {
            let with_items: Vec<usize> = (0..=root).filter(|&n| !plan.nodes[n].items.is_empty()).collect();
            if !with_items.is_empty() {
                let items = &mut plan.nodes[dice.pick(&with_items)].items;
                let place = dice.below(items.len());
                moved_column(dice, &mut items[place].first);
            }
        }
    }
    plan
}

fn moved_column(dice: &mut Dice, term: &mut Term) {
    let by = dice.pick(&[1, 2, 60, 64, 128]);
    match term {
        Term::Local(position) => *position += by,
        Term::Outer(level, position) if dice.chance(50) => (*level, *position) = (*level, *position + by),
        Term::Outer(level, _) => *level = (*level + 1) % 8,
        _ => {}
    }
}

/// Words at random, some with a header that fits.
pub fn noise(dice: &mut Dice) -> Vec<u32> {
    let (tables, nodes, items) = (dice.between(0, 3), dice.between(0, 4), dice.between(0, 4));
    let body = tables + 6 * nodes + 7 * items;
    let mut words: Vec<u32> = (0..8 + body).map(|_| if dice.chance(90) { dice.below(9) as u32 } else { dice.word() as u32 }).collect();
    if dice.chance(80) {
        words[..8].copy_from_slice(&header(tables as u32, nodes as u32, items as u32));
    }
    words
}

/// Row counts and cells of a database.
pub fn database(dice: &mut Dice, tables: &[u32]) -> (Vec<u32>, Vec<i64>) {
    let most = dice.pick(&[0, 1, 2, 3, 4, 6]);
    // Small numbers are often equal, and 0 and 1 make many sums of 0.
    let numbers = &NUMBERS[..dice.pick(&[2, 8, 8, 8, NUMBERS.len(), NUMBERS.len()])];
    let counts: Vec<u32> = tables.iter().map(|_| dice.between(0, most) as u32).collect();
    let total: u32 = tables.iter().zip(&counts).map(|(width, count)| width * count).sum();
    // Where most cells are null, many groups have no number.
    let nulls = dice.pick(&[20, 20, 60]);
    let cells = (0..total).map(|_| if dice.chance(nulls) { NULL } else { dice.pick(numbers) }).collect();
    (counts, cells)
}

//! A model of the rewriter: document 01's "Rewriting rules".
use crate::plan::{Item, Node, Plan, Term, INNER};
use std::collections::{BTreeMap, BTreeSet};

type Columns = BTreeSet<(u32, u32)>;

/// A domain: its node, its width, and where each outer column that is read under it stands.
#[derive(Clone, Default)]
struct Domain {
    node: usize,
    width: u32,
    places: BTreeMap<(u32, u32), u32>,
}

struct Rewriter<'a> {
    old: &'a Plan,
    widths: Vec<usize>,
    reads: Vec<Columns>,
    copies: Vec<usize>,
    new: Vec<Node>,
}

/// The plan that the rules give, of whatever size.
pub fn rewritten(plan: &Plan) -> Plan {
    let mut rewriter = Rewriter { old: plan, widths: plan.widths(), reads: plan.reads(), copies: vec![0; plan.nodes.len()], new: vec![] };
    for n in 0..plan.nodes.len() {
        if rewriter.reads[n].is_empty() {
            rewriter.copies[n] = rewriter.closed(n);
        }
    }
    Plan { tables: plan.tables.clone(), nodes: rewriter.new }
}

/// The words of the rewriting, or the refusal 8 or 9.
pub fn rewrite(plan: &Plan, room: usize) -> Result<Vec<u32>, (u32, u32)> {
    let new = rewritten(plan);
    let items: usize = new.nodes.iter().map(|node| node.items.len()).sum();
    if new.nodes.len() > 256 || items > 2000 || new.widths().iter().any(|&width| width > 64) {
        return Err((8, 0));
    }
    let words = new.words();
    if room < words.len() { Err((9, 0)) } else { Ok(words) }
}

/// An item whose local columns are moved and whose outer columns stand in the domain.
fn moved(item: &Item, domain: &Domain, local: impl Fn(u32) -> u32) -> Item {
    let term = |term: Term| match term {
        Term::Local(position) => Term::Local(local(position)),
        Term::Outer(level, position) => Term::Local(domain.places[&(level, position)]),
        other => other,
    };
    Item { tag: item.tag, first: term(item.first), second: term(item.second) }
}

fn not_distinct(left: u32, right: u32) -> Item {
    Item::two(7, Term::Local(left), Term::Local(right))
}

fn output(position: u32) -> Item {
    Item::one(12, Term::Local(position))
}

fn key(position: u32) -> Item {
    Item::one(11, Term::Local(position))
}

impl Rewriter<'_> {
    fn push(&mut self, node: Node) -> usize {
        self.new.push(node);
        self.new.len() - 1
    }

    fn width(&self, n: usize) -> u32 {
        self.widths[n] as u32
    }

    fn closed(&mut self, n: usize) -> usize {
        let node = self.old.nodes[n].clone();
        let mut copy = node.clone();
        if node.operator != 1 {
            copy.left = self.copies[node.left];
        }
        if node.operator != 8 {
            if node.has_right() {
                copy.right = self.copies[node.right];
            }
            return self.push(copy);
        }
        if self.reads[node.right].is_empty() {
            copy.operator = 5;
            copy.right = self.copies[node.right];
            return self.push(copy);
        }
        let left = copy.left;
        self.bound(&node, left, &Domain::default())
    }

    /// A group over the left input whose keys are what the right side reads of the left row and of the domain in front of it.
    fn bound(&mut self, node: &Node, left: usize, domain: &Domain) -> usize {
        let outside = domain.width;
        let standing = |&(level, position): &(u32, u32)| match level {
            0 => outside + position,
            _ => domain.places[&(level - 1, position)],
        };
        let keys: BTreeSet<u32> = self.reads[node.right].iter().map(standing).collect();
        let rank = |column: u32| keys.iter().filter(|&&key| key < column).count() as u32;
        let places = self.reads[node.right].iter().map(|read| (*read, rank(standing(read)))).collect();
        let inner = Domain { node: self.push(Node::over_one(6, left, keys.iter().map(|&column| key(column)).collect())), width: keys.len() as u32, places };
        let right = self.under(node.right, &inner);
        let (left_width, right_width) = (self.width(node.left), self.width(node.right));
        let front = outside + left_width;
        let mut conjuncts: Vec<Item> = keys.iter().enumerate().map(|(i, &column)| not_distinct(column, front + i as u32)).collect();
        conjuncts.extend(node.items.iter().map(|item| moved(item, domain, |p| if p < left_width { p + outside } else { p + outside + inner.width })));
        let joined = self.push(Node::over_two(5, left, right, node.kind, conjuncts));
        self.without(node, joined, front, inner.width, right_width)
    }

    /// For inner and outer a project that drops a domain's columns behind the first ones.
    fn without(&mut self, node: &Node, joined: usize, front: u32, dropped: u32, right: u32) -> usize {
        if !node.pairs_rows() {
            return joined;
        }
        let kept = (0..front).chain(front + dropped..front + dropped + right);
        self.push(Node::over_one(4, joined, kept.map(output).collect()))
    }

    /// The node with the domain's columns in front of its own.
    fn under(&mut self, n: usize, domain: &Domain) -> usize {
        if self.reads[n].is_empty() {
            return self.push(Node::over_two(5, domain.node, self.copies[n], INNER, vec![]));
        }
        let node = self.old.nodes[n].clone();
        let left = self.under(node.left, domain);
        let width = domain.width;
        let columns = 0..width;
        let all = |items: &[Item]| -> Vec<Item> { items.iter().map(|item| moved(item, domain, |p| p + width)).collect() };
        match node.operator {
            2 | 3 => self.push(Node::over_one(node.operator, left, all(&node.items))),
            4 => {
                let outputs = columns.map(output).chain(all(&node.items)).collect();
                self.push(Node::over_one(4, left, outputs))
            }
            6 if node.items[0].is_key() => {
                let items = columns.map(key).chain(all(&node.items)).collect();
                self.push(Node::over_one(6, left, items))
            }
            6 => {
                let items = columns.map(|i| not_distinct(i, width + i)).chain(all(&node.items)).collect();
                self.push(Node::over_two(7, domain.node, left, 0, items))
            }
            8 if self.reads[node.right].iter().any(|&(level, _)| level == 0) => self.bound(&node, left, domain),
            _ => self.beside(&node, left, domain),
        }
    }

    /// A join, a groupjoin, or a dependent join whose right side doesn't read its left row.
    fn beside(&mut self, node: &Node, left: usize, domain: &Domain) -> usize {
        let operator = if node.operator == 8 { 5 } else { node.operator };
        let width = domain.width;
        let (left_width, right_width) = (self.width(node.left), self.width(node.right));
        let front = width + left_width;
        if self.reads[node.right].is_empty() {
            let right = self.copies[node.right];
            let mut items: Vec<Item> = node.conjuncts().iter().map(|item| moved(item, domain, |p| p + width)).collect();
            items.extend(node.aggregates());
            return self.push(Node::over_two(operator, left, right, node.kind, items));
        }
        let mut inside = domain.clone();
        if node.operator == 8 {
            inside.places = domain.places.iter().map(|(&(level, position), &place)| ((level + 1, position), place)).collect();
        }
        let right = self.under(node.right, &inside);
        let mut items: Vec<Item> = (0..width).map(|i| not_distinct(i, front + i)).collect();
        items.extend(node.conjuncts().iter().map(|item| moved(item, domain, |p| if p < left_width { p + width } else { p + 2 * width })));
        items.extend(node.aggregates().iter().map(|item| moved(item, domain, |p| p + width)));
        let joined = self.push(Node::over_two(operator, left, right, node.kind, items));
        self.without(node, joined, front, width, right_width)
    }
}

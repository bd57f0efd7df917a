//! A plan as lists, and its words: document 01's "The plan table".

pub const INNER: u32 = 1;
pub const SEMI: u32 = 2;
pub const ANTI: u32 = 3;
pub const LEFT_OUTER: u32 = 4;

#[derive(Clone, Copy, Debug, PartialEq, Eq)]
pub enum Term {
    Local(u32),
    Outer(u32, u32),
    Constant(i32),
    Null,
    Unused,
}

#[derive(Clone, Copy, Debug, PartialEq, Eq)]
pub struct Item {
    pub tag: u32,
    pub first: Term,
    pub second: Term,
}

#[derive(Clone, Debug, PartialEq, Eq)]
pub struct Node {
    pub operator: u32,
    pub left: usize,
    pub right: usize,
    pub kind: u32,
    pub items: Vec<Item>,
}

#[derive(Clone, Debug, PartialEq, Eq)]
pub struct Plan {
    pub tables: Vec<u32>,
    pub nodes: Vec<Node>,
}

impl Term {
    fn words(self) -> [u32; 3] {
        match self {
            Term::Local(position) => [0, 0, position],
            Term::Outer(level, position) => [1, level, position],
            Term::Constant(number) => [2, 0, number as u32],
            Term::Null => [3, 0, 0],
            Term::Unused => [0, 0, 0],
        }
    }
}

impl Item {
    pub fn two(tag: u32, first: Term, second: Term) -> Item {
        Item { tag, first, second }
    }

    pub fn one(tag: u32, first: Term) -> Item {
        Item::two(tag, first, Term::Unused)
    }

    pub fn is_conjunct(&self) -> bool {
        self.tag <= 7
    }

    pub fn is_key(&self) -> bool {
        self.tag == 11
    }

    pub fn is_aggregate(&self) -> bool {
        13 <= self.tag
    }

    /// The column of a key, an output column or an aggregate.
    pub fn column(&self) -> usize {
        match self.first {
            Term::Local(position) => position as usize,
            _ => panic!("no column"),
        }
    }
}

impl Node {
    pub fn scan(table: usize) -> Node {
        Node { operator: 1, left: table, right: 0, kind: 0, items: vec![] }
    }

    pub fn over_one(operator: u32, left: usize, items: Vec<Item>) -> Node {
        Node { operator, left, right: 0, kind: 0, items }
    }

    pub fn over_two(operator: u32, left: usize, right: usize, kind: u32, items: Vec<Item>) -> Node {
        Node { operator, left, right, kind, items }
    }

    pub fn has_right(&self) -> bool {
        matches!(self.operator, 5 | 7 | 8)
    }

    /// The node numbers of the inputs, left first.
    pub fn inputs(&self) -> Vec<usize> {
        match self.operator {
            1 => vec![],
            5 | 7 | 8 => vec![self.left, self.right],
            _ => vec![self.left],
        }
    }

    pub fn conjuncts(&self) -> Vec<Item> {
        self.items.iter().copied().filter(Item::is_conjunct).collect()
    }

    pub fn aggregates(&self) -> Vec<Item> {
        self.items.iter().copied().filter(Item::is_aggregate).collect()
    }

    /// "Inner and outer rows are left then right; semi and anti rows are left's."
    pub fn pairs_rows(&self) -> bool {
        matches!(self.kind, INNER | LEFT_OUTER)
    }
}

/// The header that fits so many tables, nodes and items.
pub fn header(tables: u32, nodes: u32, items: u32) -> [u32; 8] {
    let nodes_at = 8 + tables;
    let items_at = nodes_at + 6 * nodes;
    [items_at + 7 * items, tables, 8, nodes, nodes_at, items, items_at, 0]
}

impl Plan {
    pub fn words(&self) -> Vec<u32> {
        let items: u32 = self.nodes.iter().map(|node| node.items.len() as u32).sum();
        let mut words = header(self.tables.len() as u32, self.nodes.len() as u32, items).to_vec();
        words.extend(&self.tables);
        let mut first = 0;
        for node in &self.nodes {
            let count = node.items.len() as u32;
            words.extend([node.operator, node.left as u32, node.right as u32, node.kind, first, count]);
            first += count;
        }
        for item in self.nodes.iter().flat_map(|node| &node.items) {
            words.push(item.tag);
            words.extend(item.first.words());
            words.extend(item.second.words());
        }
        words
    }

    /// The width of each node's row.
    pub fn widths(&self) -> Vec<usize> {
        let mut widths: Vec<usize> = vec![];
        for node in &self.nodes {
            widths.push(match node.operator {
                1 => self.tables[node.left] as usize,
                2 => widths[node.left],
                3 => widths[node.left] + 1,
                4 | 6 => node.items.len(),
                7 => widths[node.left] + node.aggregates().len(),
                _ if node.pairs_rows() => widths[node.left] + widths[node.right],
                _ => widths[node.left],
            });
        }
        widths
    }

    /// The outer columns, level and position, that reach beyond each node; a node with any is open.
    pub fn reads(&self) -> Vec<std::collections::BTreeSet<(u32, u32)>> {
        let mut reads: Vec<std::collections::BTreeSet<(u32, u32)>> = vec![];
        for node in &self.nodes {
            let mut own = std::collections::BTreeSet::new();
            for item in &node.items {
                for term in [item.first, item.second] {
                    if let Term::Outer(level, position) = term {
                        own.insert((level, position));
                    }
                }
            }
            for (place, input) in node.inputs().into_iter().enumerate() {
                for &(level, position) in &reads[input] {
                    if node.operator == 8 && place == 1 {
                        if level > 0 {
                            own.insert((level - 1, position));
                        }
                    } else {
                        own.insert((level, position));
                    }
                }
            }
            reads.push(own);
        }
        reads
    }
}

//! Random trees of many shapes, and trees put together by hand.

use crate::random::Random;
use crate::tree::{groups, Node, Nodes, Operator, DIFFERENCE, INTERSECTION, LAST_GROUP, UNION};
use crate::tree::{THREE_OPERATORS, TWO_OPERATORS};

/// Numbers about the least group, the one that was the last until request 4, the last and the operators,
/// and whether each is a group.
pub const GROUP_EDGES: [(u16, bool); 12] = [
    (0, false),
    (1, true),
    (9999, true),
    (10_000, true),
    (LAST_GROUP, true),
    (LAST_GROUP + 1, false),
    (65_000, false),
    (UNION, false),
    (DIFFERENCE, false),
    (INTERSECTION, false),
    (65_004, false),
    (u16::MAX, false),
];

/// One of the numbers about the edges, whether or not it is a group.
pub fn edge_number(random: &mut Random) -> u16 {
    random.pick(&GROUP_EDGES).0
}

/// The groups among them.
pub fn edge_groups() -> Vec<u16> {
    GROUP_EDGES.into_iter().filter(|&(_, is_group)| is_group).map(|(number, _)| number).collect()
}

/// `count` different groups; small and large numbers and those at the edges all occur.
pub fn some_groups(count: usize, random: &mut Random) -> Vec<u16> {
    let last = random.pick(&[9, 99, usize::from(LAST_GROUP)]).max(count);
    let edges = edge_groups();
    let mut groups = Vec::new();
    while groups.len() < count {
        let group = if random.one_in(8) { random.pick(&edges) } else { random.between(1, last) as u16 };
        if !groups.contains(&group) {
            groups.push(group);
        }
    }
    groups
}

/// `count` different groups from the first to the last, in steps as even as can be.
pub fn spread_groups(count: usize) -> Vec<u16> {
    let steps = usize::from(LAST_GROUP) - 1;
    (0..count).map(|at| (1 + at * steps / (count - 1)) as u16).collect()
}

/// The operators that a tree may have.
#[derive(Clone, Copy, PartialEq, Eq)]
pub enum Operators {
    /// As before request 6.
    WithoutIntersection,
    All,
}

impl Operators {
    /// All in one of three cases.
    pub fn any(random: &mut Random) -> Operators {
        if random.one_in(3) {
            Operators::All
        } else {
            Operators::WithoutIntersection
        }
    }

    /// One of them.
    pub fn pick(self, random: &mut Random) -> Operator {
        match self {
            Operators::WithoutIntersection => random.pick(TWO_OPERATORS),
            Operators::All => random.pick(THREE_OPERATORS),
        }
    }
}

/// How a tree splits its leaves, how often an operator is an intersection, and how often another one is a
/// difference, in eighths.
#[derive(Clone, Copy)]
pub struct Shape {
    split: Split,
    differences: usize,
    intersections: usize,
}

#[derive(Clone, Copy)]
enum Split {
    Left,
    Right,
    Even,
    Any,
    MostlyLeft,
    MostlyRight,
}

impl Shape {
    pub fn any(operators: Operators, random: &mut Random) -> Shape {
        use Split::*;
        let shape = Shape {
            split: random.pick(&[Left, Right, Even, Any, Any, MostlyLeft, MostlyRight]),
            differences: random.pick(&[0, 2, 4, 4, 6, 7, 8]),
            intersections: 0,
        };
        match operators {
            Operators::WithoutIntersection => shape,
            Operators::All => shape.with_intersections(random.pick(&[1, 1, 2, 2, 4, 8])),
        }
    }

    /// Any split, unions and differences alike.
    pub fn mixed() -> Shape {
        Shape { split: Split::Any, differences: 4, intersections: 0 }
    }

    /// Long chains of differences that are taken away, with some other node now and then: state 9.
    pub fn nested_differences() -> Shape {
        Shape { split: Split::MostlyRight, differences: 7, intersections: 0 }
    }

    /// The same with so many eighths of intersections.
    pub fn with_intersections(self, intersections: usize) -> Shape {
        Shape { intersections, ..self }
    }

    fn operator(self, random: &mut Random) -> Operator {
        if self.intersections > 0 && random.below(8) < self.intersections {
            Operator::Intersection
        } else if random.below(8) < self.differences {
            Operator::Difference
        } else {
            Operator::Union
        }
    }

    fn left_leaves(self, leaves: usize, random: &mut Random) -> usize {
        match self.split {
            Split::Left => leaves - 1,
            Split::Right => 1,
            Split::Even => leaves / 2,
            Split::MostlyLeft if !random.one_in(6) => leaves - 1,
            Split::MostlyRight if !random.one_in(6) => 1,
            _ => random.between(1, leaves - 1),
        }
    }

    fn grow(self, leaves: usize, groups: &[u16], random: &mut Random, tree: &mut Vec<u16>) {
        if leaves == 1 {
            tree.push(random.pick(groups));
            return;
        }
        let left = self.left_leaves(leaves, random);
        self.grow(left, groups, random, tree);
        self.grow(leaves - left, groups, random, tree);
        tree.push(self.operator(random).number());
    }

    /// A random tree of this shape over some of the groups.
    pub fn tree(self, leaves: usize, groups: &[u16], random: &mut Random) -> Vec<u16> {
        let mut tree = Vec::with_capacity(2 * leaves);
        self.grow(leaves, groups, random, &mut tree);
        tree
    }
}

pub fn join(left: &[u16], right: &[u16], operator: Operator) -> Vec<u16> {
    [left, right, &[operator.number()]].concat()
}

pub fn union(left: &[u16], right: &[u16]) -> Vec<u16> {
    join(left, right, Operator::Union)
}

pub fn difference(left: &[u16], right: &[u16]) -> Vec<u16> {
    join(left, right, Operator::Difference)
}

pub fn intersection(left: &[u16], right: &[u16]) -> Vec<u16> {
    join(left, right, Operator::Intersection)
}

/// The level of each node of a tree.
pub fn levels_of_nodes(tree: &[u16]) -> Vec<usize> {
    let nodes = Nodes::parse(tree).expect("a tree");
    let mut levels = vec![0; tree.len()];
    for node in (0..tree.len()).rev() {
        if let Node::Branch { left, right, .. } = nodes.node(node) {
            levels[left] = levels[node] + 1;
            levels[right] = levels[node] + 1;
        }
    }
    levels
}

/// The tree of one row of a table: in the groups whose bit is 1, not in the others.
pub fn row_tree(row: usize, groups: &[u16]) -> Vec<u16> {
    let (inside, outside): (Vec<usize>, Vec<usize>) = (0..groups.len()).partition(|place| row >> place & 1 == 1);
    let mut tree = vec![groups[inside[0]]];
    for &place in &inside[1..] {
        tree = difference(&[groups[place]], &difference(&[groups[place]], &tree));
    }
    outside.iter().fold(tree, |tree, &place| difference(&tree, &[groups[place]]))
}

/// All groups.
pub fn union_of_groups(groups: &[u16]) -> Vec<u16> {
    groups[1..].iter().fold(vec![groups[0]], |tree, &group| union(&tree, &[group]))
}

/// All groups less all groups: it selects nothing.
fn nothing(groups: &[u16]) -> Vec<u16> {
    let all = union_of_groups(groups);
    difference(&all, &all)
}

/// A tree for the table of a function that is false in row 0: all groups less all groups, and a
/// tree for each row. It has every group, and is not gathered for any marks but all groups.
pub fn table_tree(table: &[bool], groups: &[u16]) -> Vec<u16> {
    let rows = (1..table.len()).filter(|&row| table[row]);
    rows.fold(nothing(groups), |tree, row| union(&tree, &row_tree(row, groups)))
}

/// An equivalent tree in which the groups come in another order; it is not gathered for any marks but all groups.
pub fn scrambled(tree: &[u16], random: &mut Random) -> Vec<u16> {
    let mut order = groups(tree);
    random.shuffle(&mut order);
    union(&nothing(&order), tree)
}

/// A random table over so many groups, marked ones first, in which the varying columns are equal.
pub fn gatherable_table(groups: usize, marked: usize, random: &mut Random) -> Vec<bool> {
    let mut column: Vec<bool> = (0..1 << marked).map(|_| random.one_in(2)).collect();
    column[0] = random.one_in(2);
    let likely = random.pick(&[2, 3, 8]);
    let columns = (0..1 << (groups - marked)).map(|filling| match random.below(likely) {
        0 => vec![filling != 0; 1 << marked],
        1 => vec![false; 1 << marked],
        _ if filling == 0 && column[0] => vec![false; 1 << marked],
        _ => column.clone(),
    });
    columns.flatten().collect()
}

/// A random table over so many groups, marked ones first: each column is 0, 1 or one that varies, a third each,
/// and row 0 is 0.
pub fn thirds_table(groups: usize, marked: usize, random: &mut Random) -> Vec<bool> {
    loop {
        let varying: Vec<bool> = (0..1 << marked).map(|_| random.one_in(2)).collect();
        let columns = (0..1 << (groups - marked)).map(|_| match random.below(3) {
            0 => vec![false; 1 << marked],
            1 => vec![true; 1 << marked],
            _ => varying.clone(),
        });
        let table: Vec<bool> = columns.flatten().collect();
        if varying.contains(&!varying[0]) && !table[0] {
            return table;
        }
    }
}

/// An equivalent tree of exactly so many nodes: the first leaf becomes a union of itself.
pub fn padded(tree: &[u16], nodes: usize) -> Vec<u16> {
    let times = (nodes - tree.len()) / 2;
    [&tree[..1], &[tree[0], UNION].repeat(times), &tree[1..]].concat()
}

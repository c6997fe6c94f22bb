//! The gathering (01, "The gathering"). The trees that are built have unions and differences alone.

use crate::closure::{gathered_sizes, UNREACHED};
use crate::refusal::*;
use crate::tree::{groups, select, Node, Nodes, DIFFERENCE, LAST_GROUP, THREE_OPERATORS, UNION};

pub const MAXIMUM_GROUPS: usize = 8;
pub const ROWS: usize = 1 << MAXIMUM_GROUPS;

/// The verdict comes from the closure for so many groups, from the columns for more.
const CLOSURE_GROUPS: usize = 3;

/// The node that holds every marked leaf and no other.
pub fn holder(nodes: &Nodes, marks: &[u16]) -> Option<usize> {
    let mut marked = Vec::with_capacity(nodes.count());
    for node in 0..nodes.count() {
        marked.push(match nodes.node(node) {
            Node::Leaf(group) => usize::from(marks.contains(&group)),
            Node::Branch { left, right, .. } => marked[left] + marked[right],
        });
    }
    let all = marked[nodes.root()];
    let leaves = |node: usize| nodes.size(node).div_ceil(2);
    (0..nodes.count()).find(|&node| marked[node] == all && leaves(node) == all)
}

/// The tree with each group replaced by its place in `groups`, from 1.
pub fn numbered(tree: &[u16], groups: &[u16]) -> Vec<u16> {
    let mut places = vec![0; usize::from(LAST_GROUP) + 1];
    for (place, &group) in groups.iter().enumerate() {
        places[usize::from(group)] = place as u16 + 1;
    }
    tree.iter().map(|&number| if number > LAST_GROUP { number } else { places[usize::from(number)] }).collect()
}

/// The tree's value in each filling: group i of `groups` is in when bit i of the row is 1.
/// The tree is evaluated once for each row.
pub fn rows(tree: &[u16], groups: &[u16]) -> [bool; ROWS] {
    let tree = numbered(tree, groups);
    let mut rows = [false; ROWS];
    for (row, value) in rows.iter_mut().enumerate().take(1 << groups.len()) {
        *value = select(&tree, |place| row >> (place - 1) & 1 == 1);
    }
    rows
}

/// Whether a column does not vary.
pub fn constant(column: &[bool]) -> bool {
    column.iter().all(|&value| value == column[0])
}

/// Any two columns that are not constant are equal. A column is the function of the marked groups
/// (the first) that one filling of the others leaves.
pub fn columns_agree(rows: &[bool], marked: usize) -> bool {
    let mut varying = rows.chunks(1 << marked).filter(|column| !constant(column));
    let Some(first) = varying.next() else { return true };
    varying.all(|column| column == first)
}

fn closure_has(rows: &[bool], marked: usize) -> bool {
    let groups = rows.len().trailing_zeros() as usize;
    let function = (0..rows.len()).filter(|&row| rows[row]).map(|row| 1 << row).sum::<usize>();
    let marked: Vec<usize> = (0..marked).collect();
    gathered_sizes(groups, &marked, THREE_OPERATORS)[function] != UNREACHED
}

/// A tree, or none for the set that is always empty.
pub type Built = Option<Vec<u16>>;

fn join(operator: u16, mut left: Vec<u16>, right: Vec<u16>) -> Built {
    left.extend(right);
    left.push(operator);
    Some(left)
}

pub fn union(left: Built, right: Built) -> Built {
    match (left, right) {
        (Some(left), Some(right)) => join(UNION, left, right),
        (left, right) => left.or(right),
    }
}

pub fn difference(left: Built, right: Built) -> Built {
    match (left, right) {
        (Some(left), Some(right)) => join(DIFFERENCE, left, right),
        (left, _) => left,
    }
}

fn complement(values: &[bool]) -> Vec<bool> {
    values.iter().map(|value| !value).collect()
}

fn within(small: &[bool], large: &[bool]) -> bool {
    small.iter().zip(large).all(|(small, large)| !small || *large)
}

/// A tree for a function that is false in row 0, split by the last of its groups.
fn build(values: &[bool], groups: &[u16]) -> Built {
    let (&last, groups) = groups.split_last()?;
    let (out, inside) = values.split_at(values.len() / 2);
    let leaf = || Some(vec![last]);
    let below = build(out, groups);
    if out == inside {
        return below;
    }
    if inside[0] {
        let own = difference(leaf(), build(&complement(inside), groups));
        let kept = if within(out, inside) { below } else { difference(below, leaf()) };
        return union(kept, own);
    }
    let lost = difference(leaf(), build(inside, groups));
    let most = if within(inside, out) { below } else { union(below, leaf()) };
    difference(most, lost)
}

/// A gathered tree for a function whose varying columns are equal.
fn build_gathered(rows: &[bool], marks: &[u16], others: &[u16]) -> Vec<u16> {
    let columns: Vec<&[bool]> = rows.chunks(1 << marks.len()).collect();
    let varying: Vec<bool> = columns.iter().map(|column| !constant(column)).collect();
    let always: Vec<bool> = columns.iter().map(|column| constant(column) && column[0]).collect();
    let reached: Vec<bool> = varying.iter().zip(&always).map(|(&varies, &holds)| varies || holds).collect();
    let built = match varying.iter().position(|&varies| varies) {
        None => {
            let empty = difference(Some(vec![marks[0]]), Some(vec![marks[0]]));
            union(build(&always, others), empty)
        }
        Some(first) if columns[first][0] => {
            let held = build(&complement(columns[first]), marks);
            difference(build(&reached, others), difference(held, build(&always, others)))
        }
        Some(0) => {
            let held = build(columns[0], marks);
            union(difference(held, build(&complement(&reached), others)), build(&always, others))
        }
        Some(first) => {
            let held = build(columns[first], marks);
            difference(build(&reached, others), difference(build(&varying, others), held))
        }
    };
    built.expect("a holder is never empty")
}

/// Makes the gathered tree of a function whose varying columns are equal: its rows, the marks and the other groups.
pub type Builder = fn(&[bool], &[u16], &[u16]) -> Vec<u16>;

/// The gathered tree, as this builder makes it, and its holder's position, or 12, 17, 18 or 19.
pub fn gather_by(tree: &[u16], marks: &[u16], build: Builder) -> Result<(Vec<u16>, usize), Refusal> {
    let nodes = Nodes::parse(tree).ok_or(NOT_A_TREE)?;
    let groups = groups(tree);
    if groups.len() > MAXIMUM_GROUPS {
        return Err(OVER_8_GROUPS);
    }
    let bad = |at: usize| !groups.contains(&marks[at]) || marks[..at].contains(&marks[at]);
    if marks.is_empty() || (0..marks.len()).any(bad) {
        return Err(MARKS);
    }
    if let Some(position) = holder(&nodes, marks) {
        return Ok((tree.to_vec(), position));
    }
    let others: Vec<u16> = groups.iter().copied().filter(|group| !marks.contains(group)).collect();
    let rows = rows(tree, &[marks, &others].concat());
    let rows = &rows[..1 << groups.len()];
    let few = groups.len() <= CLOSURE_GROUPS;
    let gatherable = if few { closure_has(rows, marks.len()) } else { columns_agree(rows, marks.len()) };
    if !gatherable {
        return Err(NOT_GATHERABLE);
    }
    let tree = build(rows, marks, &others);
    let position = holder(&Nodes::parse(&tree).expect("a tree"), marks).expect("a holder");
    Ok((tree, position))
}

/// The gathered tree of the plain builder and its holder's position, or 12, 17, 18 or 19.
pub fn gather(tree: &[u16], marks: &[u16]) -> Result<(Vec<u16>, usize), Refusal> {
    gather_by(tree, marks, build_gathered)
}

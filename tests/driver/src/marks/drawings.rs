//! Drawings made from a tree: changed, written differently, larger.

use reference::random::Random;
use reference::shape::{difference, intersection, join, union};
use reference::tree::{Node, Nodes, Operator, DIFFERENCE, INTERSECTION, LAST_GROUP, MAXIMUM_NODES, UNION};

/// The positions of the leaves whose group `wanted` picks out.
pub fn leaves(tree: &[u16], wanted: impl Fn(u16) -> bool) -> Vec<usize> {
    (0..tree.len()).filter(|&position| tree[position] <= LAST_GROUP && wanted(tree[position])).collect()
}

/// The tree with another part in place of the one of so many nodes that ends at `node`.
fn replaced(tree: &[u16], node: usize, size: usize, part: &[u16]) -> Vec<u16> {
    [&tree[..node + 1 - size], part, &tree[node + 1..]].concat()
}

/// One operator changed; a single leaf stays.
pub fn operator_changed(tree: &[u16], random: &mut Random) -> Vec<u16> {
    let operators: Vec<usize> = (0..tree.len()).filter(|&position| tree[position] > LAST_GROUP).collect();
    let mut changed = tree.to_vec();
    if !operators.is_empty() {
        let position = random.pick(&operators);
        let others = [UNION, DIFFERENCE, INTERSECTION].into_iter().filter(|&number| number != tree[position]);
        changed[position] = random.pick(&others.collect::<Vec<u16>>());
    }
    changed
}

/// One leaf changed to one of these groups.
pub fn leaf_changed(tree: &[u16], groups: &[u16], random: &mut Random) -> Vec<u16> {
    let mut changed = tree.to_vec();
    changed[random.pick(&leaves(tree, |_| true))] = random.pick(groups);
    changed
}

/// The operands of one operator change their places; a single leaf stays.
pub fn operands_swapped(tree: &[u16], random: &mut Random) -> Vec<u16> {
    let nodes = Nodes::parse(tree).expect("a tree");
    let branch = |node: &usize| matches!(nodes.node(*node), Node::Branch { .. });
    let branches: Vec<usize> = (0..tree.len()).filter(branch).collect();
    if branches.is_empty() {
        return tree.to_vec();
    }
    let node = random.pick(&branches);
    let Node::Branch { operator, left, right } = nodes.node(node) else { unreachable!("a branch") };
    let part = join(&nodes.postfix(right), &nodes.postfix(left), operator);
    replaced(tree, node, nodes.size(node), &part)
}

/// A part written differently by a law of the operators; a leaf stays.
fn by_law(nodes: &Nodes, node: usize) -> Vec<u16> {
    let list = |node: usize| nodes.postfix(node);
    let Node::Branch { operator, left, right } = nodes.node(node) else { return list(node) };
    let (x, y) = (list(left), list(right));
    match operator {
        Operator::Union => return union(&y, &x),
        Operator::Intersection => return intersection(&y, &x),
        Operator::Difference => {}
    }
    match (nodes.node(left), nodes.node(right)) {
        (Node::Branch { operator: Operator::Union, left: a, right: b }, _) => {
            union(&difference(&list(a), &y), &difference(&list(b), &y))
        }
        (_, Node::Branch { operator: Operator::Union, left: a, right: b }) => {
            difference(&difference(&x, &list(a)), &list(b))
        }
        (Node::Branch { operator: Operator::Difference, left: a, right: b }, _) => {
            difference(&list(a), &union(&list(b), &y))
        }
        _ => difference(&x, &difference(&x, &difference(&x, &y))),
    }
}

/// The lists of the operands of the operator at a position.
pub fn operands(tree: &[u16], position: usize) -> [Vec<u16>; 2] {
    let nodes = Nodes::parse(tree).expect("a tree");
    let Node::Branch { left, right, .. } = nodes.node(position) else { unreachable!("an operator") };
    [left, right].map(|node| nodes.postfix(node))
}

/// The positions of the operators that are `I`.
pub fn intersections(tree: &[u16]) -> Vec<usize> {
    (0..tree.len()).filter(|&position| tree[position] == INTERSECTION).collect()
}

/// An equivalent tree in which x−(x−y) stands for the x I y at a position, or y−(y−x) if the right one is copied.
pub fn by_differences(tree: &[u16], position: usize, copy_right: bool) -> Vec<u16> {
    let [left, right] = operands(tree, position);
    let (x, y) = if copy_right { (&right, &left) } else { (&left, &right) };
    replaced(tree, position, left.len() + right.len() + 1, &difference(x, &difference(x, y)))
}

/// An equivalent tree: one part, and then another, is written differently, at times with one of these groups more.
pub fn rewritten(tree: &[u16], groups: &[u16], random: &mut Random) -> Vec<u16> {
    let mut tree = tree.to_vec();
    for _ in 0..random.between(1, 6) {
        let nodes = Nodes::parse(&tree).expect("a tree");
        let node = random.below(tree.len());
        let part = nodes.postfix(node);
        let group = [random.pick(groups)];
        let nothing = difference(&group, &group);
        let part = match random.below(8) {
            0 => union(&part, &part),
            1 => difference(&part, &nothing),
            2 => union(&nothing, &part),
            3 => intersection(&part, &part),
            _ => by_law(&nodes, node),
        };
        let other = replaced(&tree, node, nodes.size(node), &part);
        if other.len() <= MAXIMUM_NODES {
            tree = other;
        }
    }
    tree
}

/// An equivalent tree in which a marked leaf stands beside one of these leaves: x U (m−m), (m−m) U x or x−(m−m).
pub fn with_leaf_beside(tree: &[u16], mark: u16, beside: &[usize], random: &mut Random) -> Vec<u16> {
    let position = random.pick(beside);
    let leaf = [tree[position]];
    let nothing = difference(&[mark], &[mark]);
    let part = match random.below(3) {
        0 => union(&leaf, &nothing),
        1 => union(&nothing, &leaf),
        _ => difference(&leaf, &nothing),
    };
    replaced(tree, position, 1, &part)
}

/// An equivalent tree of exactly so many nodes, in which only one leaf x is written differently, by many x. It is
/// gathered for the same marks.
pub fn enlarged(tree: &[u16], nodes: usize, random: &mut Random) -> Vec<u16> {
    let position = random.pick(&leaves(tree, |_| true));
    let leaf = tree[position];
    let mut part = vec![leaf];
    while tree.len() + part.len() - 1 < nodes {
        let left = nodes + 1 - tree.len() - part.len();
        match random.below(3) {
            0 if left >= 4 => part.extend([leaf, leaf, DIFFERENCE, DIFFERENCE]),
            1 if left >= 4 => part.extend([leaf, leaf, DIFFERENCE, UNION]),
            _ => part.extend([leaf, UNION]),
        }
    }
    replaced(tree, position, 1, &part)
}

//! The random sheets: the same number and seed always give the same sheet.

use crate::damage::damaged;
use crate::growth::grown_to_limit;
use crate::kinds::{self, Kind};
use reference::gather::{gather, holder};
use reference::lift::{lift_by, Table};
use reference::random::Random;
use reference::refusal::NOT_GATHERABLE;
use reference::shape::{difference, gatherable_table, intersection, join, levels_of_nodes, some_groups};
use reference::shape::{table_tree, union, union_of_groups, Operators, Shape};
use reference::sheet::{Sheet, SHEET_NODES};
use reference::tree::{groups, Node, Nodes, Operator};
use reference::tree::{DIFFERENCE, INTERSECTION, LAST_GROUP, UNION};

pub const KINDS: [Kind<Vec<u8>>; 16] = [
    ("plain", 5, |random| plain(random).print()),
    ("lifted", 11, |random| lifted(random).print()),
    ("lifted near the root", 7, |random| lifted_near_root(random).print()),
    ("lifted near the root about I", 10, |random| lifted_about_intersections(random).print()),
    ("nested differences lifted", 8, |random| nested(random).print()),
    ("marked", 6, |random| marked(random).print()),
    ("mostly not gatherable", 8, |random| not_gatherable(random).print()),
    ("few groups marked", 9, |random| few_groups(random).print()),
    ("gathered", 6, |random| gathered(random).print()),
    ("gathered and distorted", 8, |random| distorted(random).print()),
    ("gatherable table", 5, |random| gatherable(random).print()),
    ("lifted and marked", 9, |random| lifted_and_marked(random).print()),
    ("grown to the node limit", 1, |random| grown(random).print()),
    ("one fault", 4, one_fault),
    ("damaged", 11, |random| damaged(whole(random), random)),
    ("noise", 2, noise),
];

/// The sum of the shares.
pub fn shares() -> usize {
    kinds::shares(&KINDS)
}

/// The sheet of a number: its kind and its bytes.
pub fn random_sheet(number: u64, seed: u64) -> (&'static str, Vec<u8>) {
    kinds::random_input(&KINDS, number, seed.wrapping_mul(1_000_003))
}

pub fn unmarked(tree: Vec<u16>) -> Sheet {
    Sheet { tree, ..Sheet::default() }
}

/// Marks some of the tree's groups, in any order.
pub fn mark_some(sheet: &mut Sheet, random: &mut Random) {
    sheet.marks = groups(&sheet.tree);
    random.shuffle(&mut sheet.marks);
    let count = random.between(1, sheet.marks.len());
    sheet.marks.truncate(count);
}

/// Mostly small numbers of leaves, at times as many as a sheet allows.
fn leaves(random: &mut Random) -> usize {
    let all = SHEET_NODES.div_ceil(2);
    if random.one_in(30) {
        return all;
    }
    let most = random.pick(&[4, 8, 8, 16, 16, 40, 120, all]);
    random.between(1, most)
}

pub fn plain(random: &mut Random) -> Sheet {
    let count = random.between(1, 8);
    let groups = some_groups(count, random);
    let leaves = leaves(random);
    unmarked(Shape::any(Operators::any(random), random).tree(leaves, &groups, random))
}

/// A lift that is likely to be done; now and then any position and levels.
pub fn some_lift(tree: &[u16], random: &mut Random) -> (usize, usize) {
    if random.one_in(12) {
        return (random.between(0, 8190), random.between(1, 99));
    }
    let levels = levels_of_nodes(tree);
    let mut position = random.below(tree.len());
    for _ in 0..6 {
        let other = random.below(tree.len());
        if levels[other] > levels[position] {
            position = other;
        }
    }
    let most = if random.one_in(8) { levels[position] } else { levels[position].saturating_sub(1) };
    let most = if random.one_in(2) { most.min(3) } else { most };
    (position, random.between(1, most.clamp(1, 99)))
}

/// A lift by one level from level 2 or 3.
fn lift_near_root(tree: &[u16], random: &mut Random) -> (usize, usize) {
    let levels = levels_of_nodes(tree);
    let near_root: Vec<usize> = (0..tree.len()).filter(|&position| matches!(levels[position], 2 | 3)).collect();
    (random.pick(&near_root), 1)
}

/// A lift by one or two levels from level 2 to 5, at times by one too many.
fn lift_by_two(tree: &[u16], random: &mut Random) -> (usize, usize) {
    let levels = levels_of_nodes(tree);
    let near_root: Vec<usize> = (0..tree.len()).filter(|&position| matches!(levels[position], 2..=5)).collect();
    let position = random.pick(&near_root);
    (position, if levels[position] > 2 || random.one_in(8) { random.between(1, 2) } else { 1 })
}

/// How a lift's position and levels are chosen.
pub type Choice = fn(&[u16], &mut Random) -> (usize, usize);

/// Adds lifts by a table, each chosen by the tree that the ones before it leave; `tree` is what the sheet's own leave.
pub fn add_lifts(
    sheet: &mut Sheet,
    mut tree: Vec<u16>,
    count: usize,
    choice: Choice,
    table: Table,
    random: &mut Random,
) {
    for _ in 0..count {
        let (position, levels) = choice(&tree, random);
        sheet.lifts.push((position, levels));
        if let Ok(lifted) = lift_by(table, &tree, position, levels) {
            tree = lifted.tree;
        }
    }
}

pub fn lifted(random: &mut Random) -> Sheet {
    lifted_by(Table::Ours, random)
}

pub fn lifted_by(table: Table, random: &mut Random) -> Sheet {
    let mut sheet = plain(random);
    let count = random.between(1, 8);
    let tree = sheet.tree.clone();
    add_lifts(&mut sheet, tree, count, some_lift, table, random);
    sheet
}

/// The same shape, in one of three cases with an `I` for one or two of eight operators.
fn with_some_intersections(shape: Shape, random: &mut Random) -> Shape {
    match Operators::any(random) {
        Operators::WithoutIntersection => shape,
        Operators::All => shape.with_intersections(random.between(1, 2)),
    }
}

pub fn lifted_near_root(random: &mut Random) -> Sheet {
    lifted_near_root_by(Table::Ours, random)
}

pub fn lifted_near_root_by(table: Table, random: &mut Random) -> Sheet {
    let count = random.between(1, 8);
    let groups = some_groups(count, random);
    let leaves = random.between(4, 16);
    let tree = with_some_intersections(Shape::mixed(), random).tree(leaves, &groups, random);
    let mut sheet = unmarked(tree.clone());
    add_lifts(&mut sheet, tree, 8, lift_near_root, table, random);
    sheet
}

pub fn lifted_about_intersections(random: &mut Random) -> Sheet {
    lifted_about_intersections_by(Table::Ours, random)
}

/// Lifts near the root in a tree in which two or three of eight operators are an `I`.
pub fn lifted_about_intersections_by(table: Table, random: &mut Random) -> Sheet {
    let count = random.between(1, 8);
    let groups = some_groups(count, random);
    let leaves = random.between(5, 24);
    let intersections = random.between(2, 3);
    let tree = Shape::mixed().with_intersections(intersections).tree(leaves, &groups, random);
    let mut sheet = unmarked(tree.clone());
    add_lifts(&mut sheet, tree, 16, lift_by_two, table, random);
    sheet
}

pub fn nested(random: &mut Random) -> Sheet {
    nested_by(Table::Ours, random)
}

pub fn nested_by(table: Table, random: &mut Random) -> Sheet {
    let count = random.between(2, 8);
    let groups = some_groups(count, random);
    let leaves = random.between(4, 60);
    let tree = with_some_intersections(Shape::nested_differences(), random).tree(leaves, &groups, random);
    let mut sheet = unmarked(tree.clone());
    let count = random.between(1, 6);
    add_lifts(&mut sheet, tree, count, some_lift, table, random);
    sheet
}

pub fn marked(random: &mut Random) -> Sheet {
    let mut sheet = plain(random);
    mark_some(&mut sheet, random);
    sheet
}

/// Few marks among many groups, mostly such that no tree gathers them.
pub fn not_gatherable(random: &mut Random) -> Sheet {
    let mut sheet = Sheet::default();
    let operators = Operators::any(random);
    for _ in 0..8 {
        let count = random.between(2, 8);
        let groups = some_groups(count, random);
        let leaves = random.between(count, 30);
        sheet.tree = Shape::any(operators, random).tree(leaves, &groups, random);
        mark_some(&mut sheet, random);
        sheet.marks.truncate(3);
        if gather(&sheet.tree, &sheet.marks) == Err(NOT_GATHERABLE) {
            break;
        }
    }
    sheet
}

pub fn few_groups(random: &mut Random) -> Sheet {
    let count = random.between(2, 3);
    let groups = some_groups(count, random);
    let leaves = random.between(2, 12);
    let mut sheet = unmarked(Shape::any(Operators::any(random), random).tree(leaves, &groups, random));
    mark_some(&mut sheet, random);
    sheet
}

pub fn lifted_and_marked(random: &mut Random) -> Sheet {
    lifted_and_marked_by(Table::Ours, random)
}

pub fn lifted_and_marked_by(table: Table, random: &mut Random) -> Sheet {
    let mut sheet = if random.one_in(2) { lifted_by(table, random) } else { nested_by(table, random) };
    mark_some(&mut sheet, random);
    sheet
}

/// A holder over marked groups inside frames of unmarked ones.
pub fn gathered_tree(marked: &[u16], others: &[u16], random: &mut Random) -> Vec<u16> {
    let leaves = random.between(1, 5);
    let operators = Operators::any(random);
    let mut tree = Shape::any(operators, random).tree(leaves, marked, random);
    for _ in 0..random.between(1, 5) {
        let leaves = random.between(1, 4);
        let other = Shape::any(operators, random).tree(leaves, others, random);
        let operator = operators.pick(random);
        tree = if random.one_in(2) { join(&tree, &other, operator) } else { join(&other, &tree, operator) };
    }
    tree
}

pub fn gathered(random: &mut Random) -> Sheet {
    let count = random.between(2, 8);
    let all = some_groups(count, random);
    let (marked, others) = all.split_at(random.between(1, count - 1));
    let tree = gathered_tree(marked, others, random);
    let mut marks: Vec<u16> = groups(&tree).into_iter().filter(|group| marked.contains(group)).collect();
    random.shuffle(&mut marks);
    Sheet { tree, marks, ..Sheet::default() }
}

/// An `I` of two parts written differently: by its operands' order, or without `I`.
fn rewritten_intersection(x: &[u16], y: &[u16], random: &mut Random) -> Vec<u16> {
    match random.below(4) {
        0 => intersection(y, x),
        1 => difference(x, &difference(x, y)),
        2 => difference(y, &difference(y, x)),
        _ => intersection(x, y),
    }
}

/// An equivalent tree, written differently.
fn rewritten(nodes: &Nodes, node: usize, random: &mut Random) -> Vec<u16> {
    let Node::Branch { operator, left, right } = nodes.node(node) else { return nodes.postfix(node) };
    let (x, y) = (rewritten(nodes, left, random), rewritten(nodes, right, random));
    if operator == Operator::Intersection {
        return rewritten_intersection(&x, &y, random);
    }
    let operands = |node: usize, wanted: Operator| match nodes.node(node) {
        Node::Branch { operator, left, right } if operator == wanted => {
            Some((nodes.postfix(left), nodes.postfix(right)))
        }
        _ => None,
    };
    match (operator, random.below(4)) {
        (Operator::Union, 0) => union(&y, &x),
        (Operator::Union, 1) => union(&x, &difference(&y, &x)),
        (Operator::Difference, 0) => difference(&x, &difference(&x, &difference(&x, &y))),
        (Operator::Difference, 1 | 2) => match operands(left, Operator::Union) {
            Some((first, second)) => union(&difference(&first, &y), &difference(&second, &y)),
            None => match operands(right, Operator::Union) {
                Some((first, second)) => difference(&difference(&x, &first), &second),
                None => difference(&x, &y),
            },
        },
        _ => join(&x, &y, operator),
    }
}

/// A gathered tree rewritten until it is not gathered any more (or too large to go on).
pub fn distorted(random: &mut Random) -> Sheet {
    let mut sheet = gathered(random);
    for _ in 0..6 {
        let nodes = Nodes::parse(&sheet.tree).expect("a tree");
        if holder(&nodes, &sheet.marks).is_none() {
            break;
        }
        let tree = rewritten(&nodes, nodes.root(), random);
        if tree.len() > SHEET_NODES {
            break;
        }
        sheet.tree = tree;
    }
    sheet
}

/// Any function that a gathered tree has, given by its table; at times with an `I` that adds nothing.
pub fn gatherable(random: &mut Random) -> Sheet {
    loop {
        let count = random.between(2, 6);
        let marked = random.between(1, count - 1);
        let groups = some_groups(count, random);
        let tree = table_tree(&gatherable_table(count, marked, random), &groups);
        let tree = match Operators::any(random) {
            Operators::WithoutIntersection => tree,
            Operators::All => intersection(&tree, &union_of_groups(&groups)),
        };
        if tree.len() <= SHEET_NODES {
            return Sheet { tree, lifts: Vec::new(), marks: groups[..marked].to_vec() };
        }
    }
}

/// A sheet whose lifts come to the node limit, and more lifts there.
pub fn grown(random: &mut Random) -> Sheet {
    let (mut sheet, tree) = grown_to_limit(random);
    let count = random.between(0, 3);
    add_lifts(&mut sheet, tree, count, some_lift, Table::Ours, random);
    if random.one_in(3) {
        mark_some(&mut sheet, random);
    }
    sheet
}

/// A whole sheet with one line too many: a ninth group, a node past the limit, an operator without
/// operands, a mark that is not in the tree, a mark twice, or the number after the last group.
pub fn one_fault(random: &mut Random) -> Vec<u8> {
    let groups = some_groups(9, random);
    let shape = Shape::any(Operators::any(random), random);
    let mut sheet = unmarked(shape.tree(SHEET_NODES.div_ceil(2), &groups[..8], random));
    mark_some(&mut sheet, random);
    match random.below(7) {
        0 => {
            sheet.tree = (0..20).map(|_| random.pick(&groups)).chain(groups.clone()).collect();
        }
        1 => sheet.tree.push(random.pick(&groups)),
        2 => sheet.tree.truncate(random.below(40)),
        3 => sheet.marks.push(groups[8]),
        4 if random.one_in(2) => sheet.tree.insert(random.below(SHEET_NODES), LAST_GROUP + 1),
        4 => sheet.marks.push(LAST_GROUP + 1),
        _ => sheet.marks.push(sheet.marks[0]),
    }
    if random.one_in(2) {
        sheet.tree.push(random.pick(&[UNION, DIFFERENCE, INTERSECTION]));
    }
    sheet.print()
}

/// Any sheet to be damaged.
pub fn whole(random: &mut Random) -> Vec<u8> {
    let make: fn(&mut Random) -> Sheet = random.pick(&[plain, lifted, marked, lifted_and_marked, gathered]);
    make(random).print()
}

/// Bytes that sheets are made of, in no order, and at times any bytes.
pub fn noise(random: &mut Random) -> Vec<u8> {
    let signs = b"GUDILKE\t\n\t\n\t\n0123456789";
    let any = random.one_in(3);
    let count = random.below(60);
    (0..count).map(|_| if any { random.next() as u8 } else { random.pick(signs) }).collect()
}

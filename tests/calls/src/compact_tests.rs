//! `gather` returns exactly the trees of the second compact builder.

use crate::inputs::{filled, numbers, same, same_buffer};
use calls::library;
use reference::calls::{compact_gather_call, TREE_BUFFER};
use reference::check::{ensure, gathering};
use reference::gather::MAXIMUM_GROUPS;
use reference::random::Random;
use reference::report::Report;
use reference::shape::{gatherable_table, intersection, join, scrambled, some_groups, table_tree, thirds_table};
use reference::shape::{union_of_groups, Operators, Shape};
use reference::tree::{groups, without_intersection};

/// So many functions for each number of groups and of marks.
const ROUNDS: usize = 72;
const GATHERED_TREES: usize = 1000;

/// The library's answer and its whole buffer are the second builder's, and these are right.
fn exactly(tree: &[u16], marks: &[u16]) -> Result<(), String> {
    let (mut out, mut expected_out) = (filled(TREE_BUFFER), filled(TREE_BUFFER));
    let expected = compact_gather_call(tree, marks, &mut expected_out);
    let [number, length, holder] = expected;
    ensure(number == 0, &format!("the second builder refuses with {number}"))?;
    gathering(tree, marks, Ok((&expected_out[..length as usize], holder as usize)))?;
    same("answer", &library::gather(tree, marks, &mut out), &expected)?;
    same_buffer(&out, &expected_out)
}

fn compare(name: &str, tree: &[u16], marks: &[u16], report: &mut Report) {
    let text = numbers("tree", tree) + &numbers("marks", marks);
    report.count(format!("compact: {name}"));
    report.saved_test(&format!("compact, {name}"), exactly(tree, marks), &[("txt", text.as_bytes())]);
}

/// A function that has a gathered tree, as a tree that is not gathered and whose groups come in any order.
fn function(count: usize, marked: usize, random: &mut Random, report: &mut Report) {
    let mut names = some_groups(count, random);
    let table = if random.one_in(2) { thirds_table } else { gatherable_table }(count, marked, random);
    let tree = scrambled(&table_tree(&table, &names), random);
    random.shuffle(&mut names[..marked]);
    let marks = &names[..marked];
    compare("function", &tree, marks, report);
    let with_intersection = intersection(&tree, &union_of_groups(&groups(&tree)));
    let built = [tree, with_intersection].map(|tree| built(&tree, marks));
    let result = same("the tree built of one with I", &built[1], &built[0])
        .and_then(|()| ensure(without_intersection(&built[0]), "an I in a tree that is built"));
    report.test("compact, the same function with I", result);
}

/// The library's gathered tree.
fn built(tree: &[u16], marks: &[u16]) -> Vec<u16> {
    let mut out = vec![0; TREE_BUFFER];
    let [_, length, _] = library::gather(tree, marks, &mut out);
    out.truncate(length as usize);
    out
}

/// A tree that is gathered, and its marks: a holder inside frames.
fn gathered_tree(random: &mut Random) -> (Vec<u16>, Vec<u16>) {
    let count = random.between(2, MAXIMUM_GROUPS);
    let names = some_groups(count, random);
    let (marked, others) = names.split_at(random.between(1, count - 1));
    let operators = Operators::any(random);
    let part = |groups: &[u16], random: &mut Random| {
        let leaves = random.between(1, 2 * groups.len());
        Shape::any(operators, random).tree(leaves, groups, random)
    };
    let mut tree = part(marked, random);
    let mut marks = groups(&tree);
    random.shuffle(&mut marks);
    for _ in 0..random.between(1, 4) {
        let (frame, operator) = (part(others, random), operators.pick(random));
        tree = if random.one_in(2) { join(&tree, &frame, operator) } else { join(&frame, &tree, operator) };
    }
    (tree, marks)
}

pub fn run(report: &mut Report) {
    let mut random = Random::new(9);
    for count in 2..=MAXIMUM_GROUPS {
        for marked in 1..count {
            (0..ROUNDS).for_each(|_| function(count, marked, &mut random, report));
        }
    }
    for _ in 0..GATHERED_TREES {
        let (tree, marks) = gathered_tree(&mut random);
        compare("gathered already", &tree, &marks, report);
        compare("gathered already, then scrambled", &scrambled(&tree, &mut random), &marks, report);
    }
}

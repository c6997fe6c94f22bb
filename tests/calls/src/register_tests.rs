//! Registers (02, request 9): the library's two codes of a tree name as many different ones as the tree needs, no code
//! of a small tree names fewer, and a tree that needs k has at least 2 to the power k, less 1, nodes.

use crate::coders::complete;
use crate::inputs::{chains, code, numbers, same, tree};
use reference::check::ensure;
use reference::coder::{needs, REGISTERS};
use reference::device::Device;
use reference::random::Random;
use reference::registers::{all_shapes, least_registers, registers_named};
use reference::report::Report;
use reference::tree::{Nodes, LAST_GROUP};
use std::collections::BTreeSet;

/// How many shapes there are with one leaf, with two and so on.
const SHAPES: [usize; 8] = [1, 1, 2, 5, 14, 42, 132, 429];
const RANDOM_TREES: usize = 300;

/// The categories: what a search for a code with so many registers came to, and a larger tree's need.
fn found(registers: usize) -> String {
    format!("registers: a code with {registers} is found")
}

fn not_found(registers: usize) -> String {
    format!("registers: no code with {registers} is found")
}

fn needed(registers: usize) -> String {
    format!("registers: a larger tree needs {registers}")
}

/// How often each must have been met. One leaf alone needs 1, and of the shapes that are searched one needs 4.
pub fn least_counts() -> Vec<(String, usize)> {
    let found = [(1, 1), (2, 100), (3, 400), (4, 1)].map(|(registers, least)| (found(registers), least));
    let not_found = [(1, 500), (2, 400), (3, 1)].map(|(registers, least)| (not_found(registers), least));
    let needed = (1..=REGISTERS.into()).map(|registers| (needed(registers), if registers <= 6 { 10 } else { 1 }));
    found.into_iter().chain(not_found).chain(needed).collect()
}

/// The registers that a tree needs, by 01's words.
fn need(tree: &[u16]) -> usize {
    let nodes = Nodes::parse(tree).expect("a tree");
    needs(&nodes)[nodes.root()].into()
}

/// The library's codes name as many different registers as the tree needs, and the tree has nodes enough for that.
fn as_needed(tree: &[u16]) -> Result<(), String> {
    let need = need(tree);
    for device in [Device::Newer, Device::Older] {
        let named = registers_named(device, &code(device, tree));
        same(&format!("registers named, {device:?} player"), &named, &need)?;
    }
    ensure(tree.len() >= (1 << need) - 1, &format!("{} nodes need {need} registers", tree.len()))
}

fn tested(name: &str, tree: &[u16], result: Result<(), String>, report: &mut Report) {
    report.count(format!("registers: {name}"));
    report.saved_test(&format!("registers, {name}"), result, &[("txt", numbers("tree", tree).as_bytes())]);
}

/// The fewest registers of any code are those that the tree needs and that the library's codes name.
fn searched(tree: &[u16], report: &mut Report) {
    let least = least_registers(tree);
    if let Some(least) = least {
        report.count(found(least));
        (1..least).for_each(|fewer| report.count(not_found(fewer)));
    }
    let result = same("least registers", &least, &Some(need(tree))).and_then(|()| as_needed(tree));
    tested("every shape", tree, result, report);
}

fn larger(name: &str, tree: &[u16], report: &mut Report) {
    report.count(needed(need(tree)));
    tested(name, tree, as_needed(tree), report);
}

/// There are so many shapes, all different whatever their groups and operators.
fn different(shapes: &[Vec<u16>], due: usize) -> Result<(), String> {
    let shape = |tree: &Vec<u16>| tree.iter().map(|&number| number <= LAST_GROUP).collect();
    let different: BTreeSet<Vec<bool>> = shapes.iter().map(shape).collect();
    same("shapes and different ones", &(shapes.len(), different.len()), &(due, due))
}

/// A complete tree has no more nodes than its need asks for.
fn complete_trees(report: &mut Report) {
    for registers in 1..=REGISTERS.into() {
        let tree = complete(1 << (registers - 1));
        let result = same("need and nodes", &(need(&tree), tree.len()), &(registers, (1 << registers) - 1));
        report.test("registers, complete tree by hand", result);
        larger("complete tree", &tree, report);
    }
}

pub fn run(report: &mut Report) {
    for (leaves, due) in (1..).zip(SHAPES) {
        let shapes = all_shapes(1, leaves);
        report.test(&format!("registers, shapes of {leaves} leaves"), different(&shapes, due));
        shapes.iter().for_each(|tree| searched(tree, report));
    }
    let mut random = Random::new(19);
    (0..RANDOM_TREES).for_each(|_| larger("random", &tree(20, &mut random), report));
    chains().for_each(|tree| larger("chain", &tree, report));
    complete_trees(report);
}

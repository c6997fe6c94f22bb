//! Tests of the reference itself: its methods against each other and against fixed keys.

use crate::cases::{Case, Expected};
use reference::check::ensure;
use reference::closure::{gathered_sizes, tree_sizes, Sizes, UNREACHED};
use reference::device::Device;
use reference::gather::columns_agree;
use reference::key::{key_bytes, school_key_bytes};
use reference::lift::{lift, lift_by, Table};
use reference::report::Report;
use reference::table::{state_and_input, tree_of, with_d, School, LINES, T_WORDS};
use reference::tree::{THREE_OPERATORS, TWO_OPERATORS};
use reference::words::{ours, sign_of};

const FEW: usize = 3;

/// The function's rows when its groups come in this order.
fn rows(function: usize, order: &[usize]) -> Vec<bool> {
    let row_of = |row: usize| (0..order.len()).map(|at| (row >> at & 1) << order[at]).sum::<usize>();
    (0..1 << order.len()).map(|row| function >> row_of(row) & 1 == 1).collect()
}

/// The function with one more group, on which it does not depend.
fn with_outside_group(function: usize, groups: usize) -> usize {
    function | function << (1 << groups)
}

/// For every function that a tree of so many groups has: the closure, the closure with a group
/// outside the tree, and the columns say the same.
fn verdicts_agree(groups: usize, marked: &[usize]) -> Result<(), String> {
    let trees = tree_sizes(groups, &(0..groups).collect::<Vec<usize>>(), THREE_OPERATORS);
    let gathered = gathered_sizes(groups, marked, THREE_OPERATORS);
    let gathered_outside = gathered_sizes(groups + 1, marked, THREE_OPERATORS);
    let others = (0..groups).filter(|group| !marked.contains(group));
    let order: Vec<usize> = marked.iter().copied().chain(others).collect();
    for function in (0..trees.len()).filter(|&function| trees[function] != UNREACHED) {
        let closure = gathered[function] != UNREACHED;
        let outside = gathered_outside[with_outside_group(function, groups)] != UNREACHED;
        let columns = columns_agree(&rows(function, &order), marked.len());
        if closure != columns || closure != outside {
            return Err(format!(
                "function {function:b}: closure {closure}, with an outside group {outside}, columns {columns}"
            ));
        }
    }
    Ok(())
}

/// Trees of three operators reach a function exactly if trees of two reach it.
fn same_functions(two: &Sizes, three: &Sizes) -> Result<(), String> {
    match (0..two.len()).find(|&function| (two[function] == UNREACHED) != (three[function] == UNREACHED)) {
        None => Ok(()),
        Some(function) => Err(format!("function {function:b} is reached with I or without, but not both")),
    }
}

/// The verdict is unchanged: gathered trees with `I` have no function that those without it lack.
fn verdict_unchanged(groups: usize, marked: &[usize]) -> Result<(), String> {
    same_functions(&gathered_sizes(groups, marked, TWO_OPERATORS), &gathered_sizes(groups, marked, THREE_OPERATORS))
}

/// Trees have exactly the functions that are false where all groups are empty, with `I` and without.
fn functions_of_trees(groups: usize) -> Result<(), String> {
    let all: Vec<usize> = (0..groups).collect();
    let [two, three] = [TWO_OPERATORS, THREE_OPERATORS].map(|operators| tree_sizes(groups, &all, operators));
    same_functions(&two, &three)?;
    match (0..two.len()).find(|&function| (two[function] != UNREACHED) != (function & 1 == 0)) {
        None => Ok(()),
        Some(function) => Err(format!("function {function:b}")),
    }
}

/// The words of our own table's file, line by line, are what our own steps make of T with D, in each order of a
/// union's operands: in states 5 to 9 an entry, in states 1 to 4 the entry for T with D joined on.
pub fn our_table(bytes: &[u8], report: &mut Report) {
    report.test("our own table as a file", ensure(School::load(bytes) == Ok(ours()), "other words, or refused"));
    let leaves = [1, 2, 3, 4].map(|leaf| vec![leaf]);
    let school = ours();
    for (state, input) in (0..LINES).map(state_and_input) {
        for t in T_WORDS[state - 1] {
            let (tree, position) = tree_of(with_d(t, input).as_bytes(), &leaves);
            let same = lift(&tree, position, 1) == lift_by(Table::School(&school), &tree, position, 1);
            report.test(&format!("our own word, state {state}, input {input}"), ensure(same, "another tree"));
            let joined_on = with_d(entry_alone(t).as_str(), input);
            let word = String::from_utf8_lossy(school.word(state, input));
            let same = state > 4 || word == joined_on;
            report.test(&format!("D joined on, state {state}, input {input}"), ensure(same, &joined_on));
        }
    }
}

/// What a step at level 2 makes of T in states 1 to 4, nothing in others.
fn entry_alone(t: &str) -> String {
    let (tree, position) = tree_of(t.as_bytes(), &[1, 2, 3, 4].map(|leaf| vec![leaf]));
    let lifted = lift(&tree, position, 1).map(|lifted| lifted.tree).unwrap_or_default();
    lifted.into_iter().map(|number| char::from(sign_of(number))).collect()
}

/// Every choice of one or more of so many groups.
fn choices(groups: usize) -> impl Iterator<Item = Vec<usize>> {
    (1..1_usize << groups).map(move |choice| (0..groups).filter(|group| choice >> group & 1 == 1).collect())
}

/// The reference's key for a device is the one given.
fn reference_key(device: Device, case: &Case, expected: &Expected, report: &mut Report) {
    let Expected::Key(expected) = expected else { return };
    let key = match case.table.contents() {
        None => key_bytes(device, &case.bytes),
        Some(table) => school_key_bytes(device, table, || case.bytes.clone()),
    };
    let result = ensure(*expected == key, "the reference prints another key");
    report.saved_test(&format!("reference, {}", case.name), result, &[("sheet", &case.bytes), ("key", &key)]);
}

pub fn run(cases: &[(Option<String>, Case)], report: &mut Report) {
    for (_, case) in cases {
        reference_key(Device::Newer, case, &case.expected, report);
        reference_key(Device::Older, case, &case.older, report);
    }
    for groups in 1..=FEW {
        report.test(&format!("functions of trees of {groups} groups"), functions_of_trees(groups));
        for marked in choices(groups) {
            let name = format!("{marked:?} of {groups} groups marked");
            report.test(&format!("verdicts, {name}"), verdicts_agree(groups, &marked));
            report.test(&format!("verdicts with I and without, {name}"), verdict_unchanged(groups, &marked));
        }
    }
}

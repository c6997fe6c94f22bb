//! The mean size of gathered trees, beside the most that is allowed. Each function is given as a tree that
//! is not gathered: every function of few groups that has a gathered tree, beside the least trees of unions and
//! differences; and random functions of 8 groups, beside the library's first builder.

use calls::library;
use reference::calls::TREE_BUFFER;
use reference::check::{ensure, gathering};
use reference::closure::{gathered_sizes, UNREACHED};
use reference::gather::MAXIMUM_GROUPS;
use reference::random::Random;
use reference::report::Report;
use reference::shape::{table_tree, thirds_table};
use reference::tree::TWO_OPERATORS;
use std::process::ExitCode;

/// Groups, marks and the bar for the mean.
const BARS: [(usize, usize, f64); 5] = [(3, 1, 6.7), (3, 2, 5.22), (4, 1, 14.6), (4, 2, 8.9), (4, 3, 10.3)];

const RANDOM_FUNCTIONS: usize = 2000;
/// The mean over the random functions of the library's first builder (commit 1e1559e), measured once with this program.
const FIRST_MEAN: f64 = 151.01;
/// The most of that mean that is allowed.
const MOST_OF_FIRST: f64 = 0.7;

/// The size of the library's gathered tree for one function.
fn gathered_size(table: &[bool], groups: &[u16], marks: &[u16]) -> Result<usize, String> {
    let tree = table_tree(table, groups);
    let mut out = vec![0; TREE_BUFFER];
    let [number, length, holder] = library::gather(&tree, marks, &mut out);
    ensure(number == 0, &format!("a function refused with {number}: {table:?}"))?;
    gathering(&tree, marks, Ok((&out[..length as usize], holder as usize)))?;
    Ok(length as usize)
}

fn names(groups: usize) -> Vec<u16> {
    (1..=groups as u16).collect()
}

fn within(mean: f64, bar: f64) -> Result<(), String> {
    ensure(mean <= bar, &format!("the mean {mean:.2} is over the bar {bar:.2}"))
}

/// Prints the means over all functions; faults if the library's is over the bar.
fn mean(groups: usize, marked: usize, bar: f64) -> Result<(), String> {
    let names = names(groups);
    let marks: Vec<usize> = (0..marked).collect();
    let least = gathered_sizes(groups, &marks, TWO_OPERATORS);
    let functions: Vec<usize> = (0..least.len()).filter(|&function| least[function] != UNREACHED).collect();
    let mut total = 0;
    for &function in &functions {
        let table: Vec<bool> = (0..1 << groups).map(|row| function >> row & 1 == 1).collect();
        total += gathered_size(&table, &names, &names[..marked])?;
    }
    let count = functions.len() as f64;
    let optimum = functions.iter().map(|&function| least[function]).sum::<usize>() as f64 / count;
    let mean = total as f64 / count;
    let means = format!("mean {mean:.2}, optimum {optimum:.2}, bar {bar:.2}");
    println!("means: {groups} groups, {marked} marked, {count} functions: {means}");
    within(mean, bar)
}

/// Prints the mean over random functions; faults if it is over the bar.
fn random_mean() -> Result<(), String> {
    let names = names(MAXIMUM_GROUPS);
    let mut random = Random::new(10);
    let mut total = 0;
    for _ in 0..RANDOM_FUNCTIONS {
        let marked = random.between(1, MAXIMUM_GROUPS - 1);
        let table = thirds_table(MAXIMUM_GROUPS, marked, &mut random);
        total += gathered_size(&table, &names, &names[..marked])?;
    }
    let mean = total as f64 / RANDOM_FUNCTIONS as f64;
    let bar = MOST_OF_FIRST * FIRST_MEAN;
    let means = format!("mean {mean:.2}, by the first builder {FIRST_MEAN:.2}, bar {bar:.2}");
    println!("means: {MAXIMUM_GROUPS} groups, {RANDOM_FUNCTIONS} random functions: {means}");
    within(mean, bar)
}

fn main() -> ExitCode {
    let mut report = Report::new("".into());
    for (groups, marked, bar) in BARS {
        report.test(&format!("mean for {marked} of {groups} groups"), mean(groups, marked, bar));
    }
    report.test("mean for random functions", random_mean());
    if report.finish("means") {
        ExitCode::SUCCESS
    } else {
        ExitCode::FAILURE
    }
}

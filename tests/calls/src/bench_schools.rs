//! Keys and lifts by a school's table.

use crate::{any_tree, compare, done_lifts_by, keep, run_command, sheet};
use crate::{CALL_RUNS, NAME_WIDTH, PROGRAM_RUNS, SCHOOL_BAR, SHEET_LIFTS};
use calls::library::{self, Rows};
use reference::calls::{lift_with_call, TREE_BUFFER};
use reference::lift::{lift_by, Table};
use reference::random::Random;
use reference::sheet::SHEET_NODES;
use reference::table::School;
use reference::tree::MAXIMUM_NODES;
use reference::words::{random_school, Style};
use std::path::Path;
use std::process::Command;

/// The key of a sheet by a table whose file is written beside the reference's own program. A program that knows no
/// tables prints another key.
pub fn bench_key(program: &Path, own: &Path, random: &mut Random) {
    let name = "key: 255 nodes, 50 lifts by a school's table";
    let school = random_school(Style::Short, random);
    let tree = any_tree(SHEET_NODES, 8, random);
    let lifts = done_lifts_by(Table::School(&school), &tree, SHEET_LIFTS, 2 * SHEET_NODES, random);
    let sheet = sheet(&tree, &lifts, &[]);
    let table = own.with_file_name("bench.table");
    std::fs::write(&table, school.print()).expect("the table is written");
    let run = |program: &Path| run_command(Command::new(program).arg(&table), &sheet);
    if run(program) == run(own) {
        compare(name, SCHOOL_BAR, PROGRAM_RUNS, &mut || keep(run(program)), &mut || keep(run(own)));
    } else {
        println!("{name:<NAME_WIDTH$} another key");
    }
}

fn bench_lift(name: &str, school: &School, tree: &[u16], position: usize, levels: usize) {
    let rows = Rows::new(school);
    let (mut out, mut own) = (vec![0; TREE_BUFFER], vec![0; TREE_BUFFER]);
    assert_eq!(library::lift_with(&rows, tree, position, levels, &mut out)[0], 0);
    let mut verified = || keep(library::lift_with(&rows, tree, position, levels, &mut out));
    let mut reference = || keep(lift_with_call(tree, position, levels, &mut own, &rows.signs, &rows.lengths));
    compare(name, SCHOOL_BAR, CALL_RUNS, &mut verified, &mut reference);
}

/// Lifts by a table held by value, which is also judged in each call. A library from before request 7 has none.
pub fn bench_lifts(random: &mut Random) {
    let school = random_school(Style::Short, random);
    let tree = any_tree(MAXIMUM_NODES - 400, 8, random);
    for levels in [1, 5] {
        let name = format!("lift by a school's table: {} nodes, levels {levels}", tree.len());
        if !library::HAS_LIFT_WITH {
            println!("{name:<NAME_WIDTH$} not in this library");
            continue;
        }
        let done = |&position: &usize| lift_by(Table::School(&school), &tree, position, levels).is_ok();
        let position = (tree.len() / 3..tree.len()).find(done).expect("a lift that is done");
        bench_lift(&name, &school, &tree, position, levels);
    }
}

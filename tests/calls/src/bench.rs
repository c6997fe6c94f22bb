//! The verified program and calls beside the reference: medians of the same inputs, their ratio and its bar.
//! The two take turns. Buffers are not cleared between calls.
//!
//! bench KEY_PROGRAM OLDER_KEY_PROGRAM MARK_PROGRAM QUESTIONS_PROGRAM
//!   the reference's own programs are looked for beside this one

mod bench_marks;
mod bench_older;
mod bench_questions;
mod bench_schools;

use calls::library;
use reference::calls::{compact_gather_call, encode_call, gather_call, lift_call, play_call};
use reference::calls::{GatherAnswer, CODE_BUFFER, TREE_BUFFER};
use reference::check::table;
use reference::coder::encode;
use reference::gather::{gather, rows};
use reference::lift::{lift, lift_by, Table};
use reference::player::{LAMP_BYTES, LAST_LAMP, MAXIMUM_PAIRS};
use reference::random::Random;
use reference::shape::{difference, gatherable_table, levels_of_nodes, padded, spread_groups, table_tree};
use reference::shape::{thirds_table, union, Shape};
use reference::sheet::{Sheet, SHEET_BYTES, SHEET_NODES};
use reference::tree::{groups, DIFFERENCE, LAST_GROUP, MAXIMUM_NODES};
use std::io::Write;
use std::path::Path;
use std::process::{Command, ExitCode, Stdio};
use std::time::{Duration, Instant};

/// The most that a ratio may be where a line has no bar of its own.
const BAR: f64 = 2.0;
const GATHER_BAR: f64 = 0.8;
const MARKS_BAR: f64 = 1.2;
const LARGE_GROUPS_BAR: f64 = 1.2;
const INTERSECTION_BAR: f64 = 1.2;
const SCHOOL_BAR: f64 = 1.2;
const OLDER_BAR: f64 = 1.0;
const TREE_AT_BAR: f64 = 4.0;
const INDEX_OF_BAR: f64 = 2.5;
const QUESTIONS_BAR: f64 = 1.3;
const NAME_WIDTH: usize = 56;
const KEY_BAR: Duration = Duration::from_millis(20);
const SHEET_LIFTS: usize = 50;
const PROGRAM_RUNS: usize = 101;
const SLOW_RUNS: usize = 5;
const CALL_RUNS: usize = 201;

type GatherCall = fn(&[u16], &[u16], &mut [u16]) -> GatherAnswer;

fn timed(run: &mut dyn FnMut()) -> Duration {
    let began = Instant::now();
    run();
    began.elapsed()
}

/// The result counts as used.
fn keep<Value>(value: Value) {
    std::hint::black_box(value);
}

fn median(mut times: Vec<Duration>) -> Duration {
    times.sort();
    times[times.len() / 2]
}

/// Prints one comparison; answers the verified side's time.
fn compare(name: &str, bar: f64, runs: usize, verified: &mut dyn FnMut(), reference: &mut dyn FnMut()) -> Duration {
    let pairs: Vec<(Duration, Duration)> = (0..runs).map(|_| (timed(verified), timed(reference))).collect();
    let (verified, reference): (Vec<Duration>, Vec<Duration>) = pairs.into_iter().unzip();
    let (verified, reference) = (median(verified), median(reference));
    let ratio = verified.as_secs_f64() / reference.as_secs_f64();
    let note = if ratio > bar { "  ABOVE" } else { "" };
    let [left, right] = [verified, reference].map(|time| time.as_secs_f64() * 1e6);
    println!("{name:<NAME_WIDTH$} {left:>11.1} us {right:>11.1} us {ratio:>7.2}  bar {bar:.1}{note}");
    verified
}

/// Runs a key program once on a sheet; answers the key.
fn run_program(program: &Path, sheet: &[u8]) -> Vec<u8> {
    run_command(&mut Command::new(program), sheet)
}

fn run_command(command: &mut Command, sheet: &[u8]) -> Vec<u8> {
    let spawned = command.stdin(Stdio::piped()).stdout(Stdio::piped()).spawn();
    let mut child = spawned.expect("the program starts");
    child.stdin.take().expect("its input").write_all(sheet).expect("the sheet is written");
    let output = child.wait_with_output().expect("its output");
    assert!(output.status.success());
    output.stdout
}

fn sheet(tree: &[u16], lifts: &[(usize, usize)], marks: &[u16]) -> Vec<u8> {
    Sheet { tree: tree.to_vec(), lifts: lifts.to_vec(), marks: marks.to_vec() }.print()
}

/// So many lifts that are done, one after the other, in a tree that stays within `most` nodes.
fn done_lifts(tree: &[u16], count: usize, most: usize, random: &mut Random) -> Vec<(usize, usize)> {
    done_lifts_by(Table::Ours, tree, count, most, random)
}

fn done_lifts_by(table: Table, tree: &[u16], count: usize, most: usize, random: &mut Random) -> Vec<(usize, usize)> {
    let mut tree = tree.to_vec();
    let mut lifts = Vec::new();
    while lifts.len() < count {
        let position = random.below(tree.len());
        let level = levels_of_nodes(&tree)[position];
        let levels = random.between(1, level.saturating_sub(1).clamp(1, 4));
        match lift_by(table, &tree, position, levels) {
            Ok(lifted) if lifted.tree.len() <= most => {
                tree = lifted.tree;
                lifts.push((position, levels));
            }
            _ => {}
        }
    }
    lifts
}

/// A tree of so many nodes that is not gathered for the first two of its groups, but can be.
fn gatherable_tree(group_count: usize, nodes: usize, random: &mut Random) -> Vec<u16> {
    let groups: Vec<u16> = (1..=group_count as u16).collect();
    padded(&table_tree(&gatherable_table(group_count, 2, random), &groups), nodes)
}

/// The dearest split for the compact builder: a table of 7 groups and the holder.
fn dearest_tree() -> Vec<u16> {
    let groups: Vec<u16> = (1..=8).collect();
    padded(&table_tree(&thirds_table(8, 1, &mut Random::new(11)), &groups), MAXIMUM_NODES)
}

fn any_tree(nodes: usize, groups: u16, random: &mut Random) -> Vec<u16> {
    let groups: Vec<u16> = (1..=groups).collect();
    Shape::mixed().tree(nodes.div_ceil(2), &groups, random)
}

/// The slowest key that we know of. Five lifts make a part of 55 nodes one of 7,043: C−(A−B) with D, A lifted, has C
/// three times. A leaf beside that part, at level 100, is then lifted by 99 levels in as many lines as fit into the
/// sheet. Each is refused with 15 at its last step, and the tree stays as it is.
fn slowest_sheet() -> Vec<u8> {
    let group = |number: usize| [(number % 8 + 1) as u16];
    let layer = |tree: &[u16]| union(&difference(tree, &difference(&[1], &[2])), &[3]);
    let position = (1..100).filter(|level| level % 3 == 1).count();
    let mut written = (1..13).fold(vec![1], |tree, number| union(&tree, &group(number)));
    let (mut grown, mut lifts) = (written.clone(), Vec::new());
    for _ in 0..5 {
        lifts.push((position + 1 + grown.len(), 1));
        grown = lift(&layer(&grown), grown.len(), 1).expect("a lift that is done").tree;
        written = layer(&written);
    }
    let tree = (1..100).fold(difference(&[1], &written), |tree, level| match level % 3 {
        0 => difference(&tree, &group(level)),
        1 => difference(&group(level), &tree),
        _ => union(&tree, &group(level)),
    });
    let bytes = |lifts: &[(usize, usize)]| sheet(&tree, lifts, &[]).len();
    let line = (position, 99);
    let count = (SHEET_BYTES - bytes(&lifts)) / (bytes(&[line]) - bytes(&[]));
    lifts.extend(vec![line; count]);
    sheet(&tree, &lifts, &[])
}

fn bench_key(name: &str, bar: f64, runs: usize, sheet: &[u8], program: &Path, own: &Path) {
    let (mut verified, mut reference) = (|| keep(run_program(program, sheet)), || keep(run_program(own, sheet)));
    if compare(name, bar, runs, &mut verified, &mut reference) > KEY_BAR {
        println!("  ABOVE 20 ms");
    }
}

fn bench_keys(program: &Path, own: &Path, random: &mut Random) {
    let tree = any_tree(SHEET_NODES, 8, random);
    let lifts = done_lifts(&tree, SHEET_LIFTS, 2 * SHEET_NODES, random);
    let growing = done_lifts(&tree, SHEET_LIFTS, MAXIMUM_NODES, random);
    let marked = gatherable_tree(4, SHEET_NODES, random);
    let sheets = [
        ("key: no bytes (the start of a process)", BAR, Vec::new()),
        ("key: 255 nodes", BAR, sheet(&tree, &[], &[])),
        ("key: 255 nodes, 50 lifts", BAR, sheet(&tree, &lifts, &[])),
        ("key: 255 nodes, 50 lifts that copy much", BAR, sheet(&tree, &growing, &[])),
        ("key: 255 nodes, marks", MARKS_BAR, sheet(&marked, &[], &[1, 2])),
    ];
    for (name, bar, sheet) in sheets {
        bench_key(name, bar, PROGRAM_RUNS, &sheet, program, own);
    }
    bench_key("key: 255 nodes, 60,000 bytes of lifts", BAR, SLOW_RUNS, &slowest_sheet(), program, own);
    bench_intersection_key(program, own, random);
}

/// A tree with all three operators alike. A program without `I` prints another key.
fn bench_intersection_key(program: &Path, own: &Path, random: &mut Random) {
    let name = "key: 255 nodes with I, 50 lifts";
    let groups: Vec<u16> = (1..=8).collect();
    let tree = Shape::mixed().with_intersections(3).tree(SHEET_NODES.div_ceil(2), &groups, random);
    let lifts: Vec<(usize, usize)> = (0..SHEET_LIFTS).map(|_| (random.below(SHEET_NODES), 1)).collect();
    let sheet = sheet(&tree, &lifts, &[]);
    if run_program(program, &sheet) == run_program(own, &sheet) {
        bench_key(name, INTERSECTION_BAR, PROGRAM_RUNS, &sheet, program, own);
    } else {
        println!("{name:<NAME_WIDTH$} another key");
    }
}

fn bench_lift(name: &str, tree: &[u16], position: usize, levels: usize) {
    let (mut out, mut own) = (vec![0; TREE_BUFFER], vec![0; TREE_BUFFER]);
    assert_eq!(library::lift(tree, position, levels, &mut out)[0], 0);
    compare(name, BAR, CALL_RUNS, &mut || keep(library::lift(tree, position, levels, &mut out)), &mut || {
        keep(lift_call(tree, position, levels, &mut own))
    });
}

/// Lifts in a tree of 8,191 nodes: the first position from which so many levels are done.
fn bench_lifts(random: &mut Random) {
    let tree = any_tree(MAXIMUM_NODES - 400, 8, random);
    for levels in [1, 5, 10] {
        let done = |&position: &usize| lift(&tree, position, levels).is_ok();
        let position = (tree.len() / 3..tree.len()).find(done).expect("a lift that is done");
        bench_lift(&format!("lift: {} nodes, levels {levels}", tree.len()), &tree, position, levels);
    }
    let chain: Vec<u16> = (0..MAXIMUM_NODES).map(|at| if at > 0 && at % 2 == 0 { DIFFERENCE } else { 1 }).collect();
    bench_lift("lift: chain of 8,191 nodes, levels 1", &chain, 0, 1);
    bench_lift("lift: chain of 8,191 nodes, levels 99", &chain, 0, 99);
}

/// One gathering; `number` and a tree that is not the given one are due.
fn bench_gathering(name: &str, tree: &[u16], marks: &[u16], number: u32, own_call: GatherCall) {
    let (mut out, mut own) = (vec![0; TREE_BUFFER], vec![0; TREE_BUFFER]);
    let answer = library::gather(tree, marks, &mut out);
    assert!(answer[0] == number && out != tree);
    compare(name, GATHER_BAR, CALL_RUNS, &mut || keep(library::gather(tree, marks, &mut out)), &mut || {
        keep(own_call(tree, marks, &mut own))
    });
}

fn bench_gather(random: &mut Random) {
    let gatherable = gatherable_tree(8, MAXIMUM_NODES, random);
    let mut trees = std::iter::repeat_with(|| any_tree(MAXIMUM_NODES, 8, random));
    let not_gatherable = trees.find(|tree| gather(tree, &[1, 2]).is_err()).expect("such a tree");
    bench_gathering("gather: 8,191 nodes, 8 groups", &gatherable, &[1, 2], 0, gather_call);
    bench_gathering("gather: 8,191 nodes, 19", &not_gatherable, &[1, 2], 19, gather_call);
    let dearest = dearest_tree();
    bench_gathering("gather: 8,191 nodes, 1 mark, 7 others", &dearest, &[1], 0, compact_gather_call);
    let groups = groups(&gatherable);
    let by_rows = timed(&mut || keep(rows(&gatherable, &groups)));
    let by_words = timed(&mut || keep(table(&gatherable, &groups)));
    println!("  (the reference's table row by row, as 01 has it: {by_rows:?}; all rows at once: {by_words:?})");
}

fn bench_code(random: &mut Random) {
    let tree = any_tree(MAXIMUM_NODES, 1000, random);
    let (mut out, mut own) = (vec![0; CODE_BUFFER], vec![0; CODE_BUFFER]);
    compare("encode: 8,191 nodes", BAR, CALL_RUNS, &mut || keep(library::encode(&tree, &mut out)), &mut || {
        keep(encode_call(&tree, &mut own))
    });
    let code = encode(&tree).expect("a tree");
    let pair = |random: &mut Random| [random.between(1, 1000) as u16, random.between(1, 512) as u16];
    for pairs in [100, MAXIMUM_PAIRS] {
        let patch: Vec<u16> = (0..pairs).flat_map(|_| pair(random)).collect();
        bench_play(&format!("play: 8,191 instructions, {pairs} pairs"), BAR, &code, &patch);
    }
}

/// One play. A library with a smaller range of groups, or without BOTH, refuses it.
fn bench_play(name: &str, bar: f64, code: &[u16], patch: &[u16]) {
    let (mut lamps, mut own_lamps) = ([0; LAMP_BYTES], [0; LAMP_BYTES]);
    let number = library::play(code, patch, &mut lamps);
    if number != 0 {
        println!("{name:<NAME_WIDTH$} refused with {number}");
        return;
    }
    compare(name, bar, CALL_RUNS, &mut || keep(library::play(code, patch, &mut lamps)), &mut || {
        keep(play_call(code, patch, &mut own_lamps))
    });
}

/// Groups from the first to the last in the code, and pairs of these.
fn bench_large_groups(random: &mut Random) {
    let tree = Shape::mixed().tree(MAXIMUM_NODES.div_ceil(2), &spread_groups(MAXIMUM_PAIRS), random);
    let loaded = groups(&tree);
    let pair = |random: &mut Random| [random.pick(&loaded), random.between(1, usize::from(LAST_LAMP)) as u16];
    let patch: Vec<u16> = (0..MAXIMUM_PAIRS).flat_map(|_| pair(random)).collect();
    let last = format!("{},{:03}", LAST_GROUP / 1000, LAST_GROUP % 1000);
    let name = format!("play: 8,191 instructions, 4,096 pairs, groups to {last}");
    bench_play(&name, LARGE_GROUPS_BAR, &encode(&tree).expect("a tree"), &patch);
}

/// Code with ADD, CUT and BOTH alike, and a full patch.
fn bench_both(random: &mut Random) {
    let groups: Vec<u16> = (1..=1000).collect();
    let tree = Shape::mixed().with_intersections(3).tree(MAXIMUM_NODES.div_ceil(2), &groups, random);
    let pair = |random: &mut Random| [random.pick(&groups), random.between(1, usize::from(LAST_LAMP)) as u16];
    let patch: Vec<u16> = (0..MAXIMUM_PAIRS).flat_map(|_| pair(random)).collect();
    let name = "play: 8,191 instructions with BOTH, 4,096 pairs";
    bench_play(name, INTERSECTION_BAR, &encode(&tree).expect("a tree"), &patch);
}

fn main() -> ExitCode {
    let arguments: Vec<String> = std::env::args().skip(1).collect();
    let [key_program, older_key_program, mark_program, questions_program] = &arguments[..] else {
        eprintln!("usage: bench KEY_PROGRAM OLDER_KEY_PROGRAM MARK_PROGRAM QUESTIONS_PROGRAM");
        return ExitCode::FAILURE;
    };
    let this = std::env::current_exe().expect("this program's path");
    let random = || Random::new(8);
    println!("{:<NAME_WIDTH$} {:>14} {:>14} {:>7}", "medians", "verified", "reference", "ratio");
    bench_keys(Path::new(key_program), &this.with_file_name("reference_key"), &mut random());
    bench_schools::bench_key(Path::new(key_program), &this.with_file_name("reference_key"), &mut random());
    let own_older = this.with_file_name("reference_older_key");
    bench_older::bench_keys(Path::new(older_key_program), &own_older, &mut random());
    bench_lifts(&mut random());
    bench_schools::bench_lifts(&mut random());
    bench_gather(&mut random());
    bench_code(&mut random());
    bench_large_groups(&mut random());
    bench_both(&mut random());
    bench_older::bench_code(&mut random());
    bench_questions::bench_calls();
    bench_marks::bench_marks(Path::new(mark_program), &this.with_file_name("reference_mark"), &mut random());
    bench_questions::bench_list(Path::new(questions_program), &this.with_file_name("reference_questions"));
    ExitCode::SUCCESS
}

//! The random sheets with a school's table: the same number and seed always give the same two.

use super::faults::FORM_FAULTS;
use super::growth::grown_to_limit;
use crate::damage::{damaged, damaged_table};
use crate::generate::*;
use crate::kinds::{self, Kind};
use reference::bad_words::WORD_FAULTS;
use reference::lift::Table;
use reference::random::Random;
use reference::shape::{some_groups, Operators, Shape};
use reference::sheet::Sheet;
use reference::table::{line_of, School, LINES};
use reference::words::{copying_school, good_word, ours, random_school, Style};

/// A table's bytes and a sheet's.
type Made = (Vec<u8>, Vec<u8>);

pub const KINDS: [Kind<Made>; 15] = [
    ("lifted", 14, |random| by_any_school(random, lifted_by)),
    ("lifted near the root", 12, |random| by_any_school(random, lifted_near_root_by)),
    ("lifted near the root about I", 14, |random| by_any_school(random, lifted_about_intersections_by)),
    ("nested differences lifted", 9, |random| by_any_school(random, nested_by)),
    ("lifted and marked", 9, |random| by_any_school(random, lifted_and_marked_by)),
    ("mostly not gatherable, lifted", 6, |random| lifted_with_marks(not_gatherable, random)),
    ("gathered, lifted", 6, |random| lifted_with_marks(gathered, random)),
    ("words that copy much", 8, copying),
    ("to 8,191 nodes", 2, |random| at_limit(true, random)),
    ("to 8,193 nodes", 2, |random| at_limit(false, random)),
    ("our own table", 5, our_own),
    ("damaged sheet", 4, |random| (any_school(random).print(), damaged(whole(random), random))),
    ("table with a fault", 6, |random| (faulty(random), whole(random))),
    ("damaged table", 5, |random| (damaged_table(any_school(random).print(), random), whole(random))),
    ("damaged table and sheet", 4, both_damaged),
];

/// The sum of the shares.
pub fn shares() -> usize {
    kinds::shares(&KINDS)
}

/// The kind, the table and the sheet of a number.
pub fn random_pair(number: u64, seed: u64) -> (&'static str, Made) {
    kinds::random_input(&KINDS, number, seed.wrapping_mul(1_000_033))
}

fn any_school(random: &mut Random) -> School {
    let style = Style::any(random);
    random_school(style, random)
}

fn by_any_school(random: &mut Random, make: fn(Table, &mut Random) -> Sheet) -> Made {
    let school = any_school(random);
    (school.print(), make(Table::School(&school), random).print())
}

/// A sheet with marks and lifts by any school's table.
fn lifted_with_marks(make: fn(&mut Random) -> Sheet, random: &mut Random) -> Made {
    let school = any_school(random);
    let mut sheet = make(random);
    let (tree, count) = (sheet.tree.clone(), random.between(1, 6));
    add_lifts(&mut sheet, tree, count, some_lift, Table::School(&school), random);
    (school.print(), sheet.print())
}

/// Lifts by words with one letter many times, in trees of up to 80 leaves.
fn copying(random: &mut Random) -> Made {
    let letter = random.pick(b"BCD");
    let school = copying_school(letter, random);
    let groups = some_groups(8, random);
    let leaves = random.between(10, 80);
    let tree = Shape::any(Operators::WithoutIntersection, random).tree(leaves, &groups, random);
    let mut sheet = unmarked(tree.clone());
    let count = random.between(2, 8);
    add_lifts(&mut sheet, tree, count, some_lift, Table::School(&school), random);
    if random.one_in(4) {
        mark_some(&mut sheet, random);
    }
    (school.print(), sheet.print())
}

fn at_limit(is_done: bool, random: &mut Random) -> Made {
    loop {
        let school = if random.one_in(2) { any_school(random) } else { copying_school(random.pick(b"BCD"), random) };
        if let Some(sheet) = (0..20).find_map(|_| grown_to_limit(&school, is_done, random)) {
            return (school.print(), sheet.print());
        }
    }
}

/// Our own words as a school's.
fn our_own(random: &mut Random) -> Made {
    let school = ours();
    let makes = [lifted_by, lifted_near_root_by, nested_by, lifted_and_marked_by];
    let make: fn(Table, &mut Random) -> Sheet = random.pick(&makes);
    (school.print(), make(Table::School(&school), random).print())
}

/// A table with a fault in one to three lines.
fn faulty(random: &mut Random) -> Vec<u8> {
    let words: Vec<Vec<u8>> = any_school(random).words().to_vec();
    let mut lines: Vec<Vec<u8>> = words.iter().enumerate().map(|(line, word)| line_of(line, word)).collect();
    for _ in 0..random.between(1, 3) {
        let line = random.below(LINES);
        let word = good_word(line, Style::Short, random);
        let word = if random.one_in(2) { random.pick(&WORD_FAULTS).1(line, &word, random) } else { Some(word) };
        let Some(word) = word else { continue };
        let with_fault = if random.one_in(2) { random.pick(&FORM_FAULTS).1(line, &word, random) } else { None };
        lines[line] = with_fault.unwrap_or_else(|| line_of(line, &word));
    }
    lines.concat()
}

fn both_damaged(random: &mut Random) -> Made {
    let table = any_school(random).print();
    let table = if random.one_in(4) { table } else { damaged_table(table, random) };
    (table, damaged(whole(random), random))
}

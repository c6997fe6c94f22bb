//! `tree_at` (02, request 10): every index with lent arrays of many lengths, indices past the last, and what 02 says of
//! the list. That its neighbours rise, that each is a question and how many there are leaves only one list.

use crate::inputs::{filled, same, same_buffer};
use crate::question_lists::{faults, ENTRIES};
use calls::library;
use reference::calls::tree_at_call;
use reference::check::ensure;
use reference::random::Random;
use reference::report::Report;
use reference::tree::{DIFFERENCE, UNION};
use std::cmp::Ordering;
use std::collections::BTreeSet;

pub const QUESTIONS: usize = 3477;
pub const MOST_ENTRIES: usize = 7;
/// How many questions have so many entries, by hand: the shapes (1, 1, 2, 5), times 3 for each leaf and 2 for each
/// operator.
const COUNTS: [(usize, usize); 4] = [(1, 3), (3, 18), (5, 216), (7, 3240)];
/// How many numbers are lent.
const LENGTHS: [usize; 11] = [7, 0, 1, 2, 3, 4, 5, 6, 8, 9, 20];
/// So many numbers before and behind those that are lent.
const MARGIN: usize = 5;
/// All indices up to this one are tried.
const LAST_NEAR: usize = 4000;
const RANDOM_INDICES: usize = 2000;

/// Indices and their trees by hand.
pub const BY_HAND: [(usize, &[u16]); 25] = [
    (0, &[1]),
    (1, &[2]),
    (2, &[3]),
    (3, &[1, 1, UNION]),
    (4, &[1, 1, DIFFERENCE]),
    (5, &[1, 2, UNION]),
    (8, &[1, 3, DIFFERENCE]),
    (9, &[2, 1, UNION]),
    (20, &[3, 3, DIFFERENCE]),
    (21, &[1, 1, 1, UNION, UNION]),
    (22, &[1, 1, 1, UNION, DIFFERENCE]),
    (23, &[1, 1, 1, DIFFERENCE, UNION]),
    (25, &[1, 1, 2, UNION, UNION]),
    (32, &[1, 1, 3, DIFFERENCE, DIFFERENCE]),
    (33, &[1, 1, UNION, 1, UNION]),
    (39, &[1, 1, DIFFERENCE, 1, UNION]),
    (45, &[1, 2, 1, UNION, UNION]),
    (92, &[1, 3, DIFFERENCE, 3, DIFFERENCE]),
    (93, &[2, 1, 1, UNION, UNION]),
    (165, &[3, 1, 1, UNION, UNION]),
    (236, &[3, 3, DIFFERENCE, 3, DIFFERENCE]),
    (237, &[1, 1, 1, 1, UNION, UNION, UNION]),
    (1317, &[2, 1, 1, 1, UNION, UNION, UNION]),
    (2397, &[3, 1, 1, 1, UNION, UNION, UNION]),
    (3476, &[3, 3, DIFFERENCE, 3, DIFFERENCE, 3, DIFFERENCE]),
];

pub fn least_counts() -> Vec<(String, usize)> {
    [("answered 0", QUESTIONS), ("answered 30", 2500), ("past the last by a power of two", 52 * QUESTIONS)]
        .map(|(category, least)| (format!("tree at: {category}"), least))
        .to_vec()
}

/// The library's tree with this index.
pub fn question(index: usize) -> Result<Vec<u16>, String> {
    let mut entries = vec![0; MOST_ENTRIES];
    let [number, count] = library::tree_at(index, &mut entries);
    ensure(number == 0, &format!("index {index} is refused with {number}"))?;
    ensure(count as usize <= MOST_ENTRIES, &format!("index {index}: {count} entries"))?;
    entries.truncate(count as usize);
    Ok(entries)
}

/// With so many numbers lent out of a longer buffer, the answer and the whole buffer are the reference's.
fn lent(index: usize, length: usize) -> Result<(), String> {
    let (mut buffer, mut expected_buffer) = (filled(length + 2 * MARGIN), filled(length + 2 * MARGIN));
    let places = MARGIN..MARGIN + length;
    let answer = library::tree_at(index, &mut buffer[places.clone()]);
    let name = |of: &str| format!("{of}, index {index}, {length} numbers lent");
    let due = if index < QUESTIONS { 0 } else { 30 };
    same(&name("number"), &answer[0], &due)?;
    same(&name("answer"), &answer, &tree_at_call(index, &mut expected_buffer[places]))?;
    same_buffer(&buffer, &expected_buffer).map_err(|fault| name(&fault))
}

/// The index of the tree with this index is this one.
fn comes_back(index: usize) -> Result<(), String> {
    let question = question(index)?;
    same(&format!("index of {question:?}"), &library::index_of(&question), &[0, index as u32])
}

fn tried(name: &str, index: usize, report: &mut Report) {
    let is_question = index < QUESTIONS;
    let result = LENGTHS.iter().try_for_each(|&length| lent(index, length));
    let result = result.and_then(|()| if is_question { comes_back(index) } else { Ok(()) });
    report.count(format!("tree at: {name}"));
    report.count(format!("tree at: answered {}", if is_question { 0 } else { 30 }));
    report.saved_test(&format!("tree at, {name}"), result, &[("txt", format!("index {index}\n").as_bytes())]);
}

/// Indices about the powers of two, near the largest, and at random.
fn other_indices(report: &mut Report) {
    for power in (0..usize::BITS).map(|bit| 1_usize << bit) {
        for index in power.saturating_sub(2)..=power.saturating_add(5) {
            tried("about a power of two", index, report);
        }
    }
    for below in 0..1000 {
        tried("near the largest", usize::MAX - below, report);
    }
    let mut random = Random::new(23);
    for _ in 0..RANDOM_INDICES {
        let index = random.next() as usize >> random.below(48);
        tried("random", index, report);
    }
}

/// Whatever bits of an index were left out, an index that is past the last by a power of two would be seen.
fn past_by_a_power(report: &mut Report) {
    for bit in QUESTIONS.ilog2() + 1..usize::BITS {
        let result = (0..QUESTIONS).try_for_each(|index| {
            report.count("tree at: past the last by a power of two".to_string());
            lent(index + (1 << bit), MOST_ENTRIES)
        });
        report.test(&format!("tree at, past by 2 to the power {bit}"), result);
    }
}

/// Whether a list comes first in 02's order: it is shorter, or as long and its first other entry comes first.
fn comes_first(list: &[u16], other: &[u16]) -> bool {
    let place = |entry: u16| ENTRIES.iter().position(|&known| known == entry);
    match list.len().cmp(&other.len()) {
        Ordering::Less => true,
        Ordering::Greater => false,
        Ordering::Equal => {
            let differing = list.iter().zip(other).find(|(entry, other)| entry != other);
            differing.is_some_and(|(&entry, &other)| place(entry) < place(other))
        }
    }
}

/// What 02 says of the list, of the library's.
fn whole_list(list: &[Vec<u16>], report: &mut Report) {
    let rises = |pair: &[Vec<u16>]| ensure(comes_first(&pair[0], &pair[1]), &format!("{pair:?}"));
    report.test("tree at, neighbours rise", list.windows(2).try_for_each(rises));
    let judged = |tree: &Vec<u16>| ensure(faults(tree).is_empty(), &format!("{tree:?}: {:?}", faults(tree)));
    report.test("tree at, each is a question", list.iter().try_for_each(judged));
    let different: BTreeSet<&Vec<u16>> = list.iter().collect();
    report.test("tree at, different lists", same("count", &different.len(), &QUESTIONS));
    let counts = COUNTS.map(|(entries, _)| (entries, list.iter().filter(|tree| tree.len() == entries).count()));
    report.test("tree at, counts by length", same("counts", &counts, &COUNTS));
    let sum = COUNTS.iter().map(|(_, count)| count).sum::<usize>();
    report.test("tree at, all counts", same("sum", &sum, &QUESTIONS));
}

fn by_hand(report: &mut Report) {
    for (index, tree) in BY_HAND {
        let result = same("tree", &question(index), &Ok(tree.to_vec()));
        report.test(&format!("tree at, index {index} by hand"), result);
        let result = same("answer", &library::index_of(tree), &[0, index as u32]);
        report.test(&format!("index of, {tree:?} by hand"), result);
    }
}

pub fn run(report: &mut Report) {
    (0..QUESTIONS).for_each(|index| tried("every index", index, report));
    (QUESTIONS..=LAST_NEAR).for_each(|index| tried("soon past the last", index, report));
    other_indices(report);
    past_by_a_power(report);
    match (0..QUESTIONS).map(question).collect::<Result<Vec<Vec<u16>>, String>>() {
        Ok(list) => whole_list(&list, report),
        Err(fault) => report.test("tree at, the whole list", Err(fault)),
    }
    by_hand(report);
}

//! `index_of` (02, request 10) of lists that are questions and lists that are not. What is due is judged by the words
//! of 01 and 02, without any list of questions, and then compared with the reference's answer too.

use crate::inputs::{numbers, same};
use crate::question_tests::{question, MOST_ENTRIES, QUESTIONS};
use calls::library;
use reference::calls::index_of_call;
use reference::questions;
use reference::random::Random;
use reference::report::Report;
use reference::shape::{Operators, Shape};
use std::ops::Range;

/// A question's entries in 02's order.
pub const ENTRIES: [u16; 5] = [1, 2, 3, 65_001, 65_002];
/// Numbers that no question has: groups, one of which ends in the same eight bits as group 1, `I`, and numbers that are
/// no entries.
const OTHER_NUMBERS: [u16; 9] = [0, 4, 257, 60_000, 60_001, 65_000, 65_003, 65_004, 65_535];
const SHORT_LIST_NUMBERS: [u16; 10] = [0, 1, 2, 3, 4, 65_000, 65_001, 65_002, 65_003, 65_004];
const RANDOM_LISTS: usize = 20_000;
const RANDOM_TREES: usize = 1000;

const NO_ENTRY: &str = "a number that is no entry";
const OTHER_GROUP: &str = "another group";
const INTERSECTION: &str = "an I";
const NO_TREE: &str = "no tree";
const TOO_MANY_LEAVES: &str = "more than four leaves";

/// The category of lists that have this fault and no other.
fn refused_only_for(fault: &str) -> String {
    format!("index of: refused only for {fault}")
}

pub fn least_counts() -> Vec<(String, usize)> {
    let kinds = CHANGES.iter().map(|(kind, _)| (*kind, 5 * QUESTIONS));
    let others = [
        ("answered 0", 10_000),
        ("answered 30", 200_000),
        ("every list of up to seven entries", 97_656),
        ("short list", 1111),
        ("a tree of five leaves", RANDOM_TREES),
        ("a tree of six to ten leaves", RANDOM_TREES),
        ("random list of 4 to 9 entries", RANDOM_LISTS),
        ("random list of 8 to 20 entries", RANDOM_TREES),
        ("a question within a longer list", 500),
        ("a chain", 50),
    ];
    let named = kinds.chain(others).map(|(category, least)| (format!("index of: {category}"), least));
    let faults = [NO_ENTRY, OTHER_GROUP, INTERSECTION, NO_TREE, TOO_MANY_LEAVES];
    named.chain(faults.map(|fault| (refused_only_for(fault), 1000))).collect()
}

fn is_operator(number: u16) -> bool {
    (65_001..=65_003).contains(&number)
}

/// Whether a list is one tree, whatever its leaves: from its end, each number fills a place, and an operator asks for
/// two more.
fn is_one_tree(list: &[u16]) -> bool {
    let mut places = 1;
    for &number in list.iter().rev() {
        if places == 0 {
            return false;
        }
        places = if is_operator(number) { places + 1 } else { places - 1 };
    }
    places == 0
}

/// Everything for which a list is no question.
pub fn faults(list: &[u16]) -> Vec<&'static str> {
    let leaves = list.iter().filter(|&&number| !is_operator(number)).count();
    let all = [
        (NO_ENTRY, list.iter().any(|number| matches!(number, 0 | 60_001..=65_000 | 65_004..))),
        (OTHER_GROUP, list.iter().any(|number| matches!(number, 4..=60_000))),
        (INTERSECTION, list.contains(&65_003)),
        (NO_TREE, !is_one_tree(list)),
        (TOO_MANY_LEAVES, leaves > 4),
    ];
    all.into_iter().filter(|&(_, is_there)| is_there).map(|(fault, _)| fault).collect()
}

/// The library's answer is the one due and the reference's, and the tree with a list's index is the list.
fn judged(list: &[u16], faults: &[&str]) -> Result<(), String> {
    let answer = library::index_of(list);
    same("number", &answer[0], &if faults.is_empty() { 0 } else { 30 })?;
    same("answer", &answer, &index_of_call(list))?;
    match answer {
        [0, index] => same("the tree with the index", &question(index as usize), &Ok(list.to_vec())),
        _ => Ok(()),
    }
}

/// Tries lists of one kind as one test. If some fail, the first of them is saved.
fn tried(kind: &str, lists: &[Vec<u16>], report: &mut Report) {
    let mut failed = None;
    for list in lists {
        let faults = faults(list);
        report.count(format!("index of: {kind}"));
        report.count(format!("index of: answered {}", if faults.is_empty() { 0 } else { 30 }));
        if let [fault] = faults[..] {
            report.count(refused_only_for(fault));
        }
        if let (None, Err(fault)) = (&failed, judged(list, &faults)) {
            failed = Some((numbers("list", list), fault));
        }
    }
    let (text, result) = failed.map_or((String::new(), Ok(())), |(text, fault)| (text, Err(fault)));
    report.saved_test(&format!("index of, {kind}"), result, &[("txt", text.as_bytes())]);
}

/// All lists of so many of these numbers, by the numbers' order.
fn all_lists(choices: &[u16], length: u32) -> impl Iterator<Item = Vec<u16>> + '_ {
    let list = move |number: usize| {
        let choice = |place: u32| choices[number / choices.len().pow(place) % choices.len()];
        (0..length).rev().map(choice).collect()
    };
    (0..choices.len().pow(length)).map(list)
}

/// Every list of up to seven entries, in 02's order: the questions among them have the indices 0, 1 and so on.
fn every_list(report: &mut Report) {
    let mut questions = 0;
    for length in 0..=MOST_ENTRIES as u32 {
        let lists: Vec<Vec<u16>> = all_lists(&ENTRIES, length).collect();
        let in_order = lists.iter().try_for_each(|list| {
            let is_question = faults(list).is_empty();
            let due = if is_question { [0, questions] } else { [30, 0] };
            questions += u32::from(is_question);
            same(&format!("answer for {list:?}"), &library::index_of(list), &due)
        });
        report.test(&format!("index of, every list of {length} entries in order"), in_order);
        tried("every list of up to seven entries", &lists, report);
    }
    report.test("index of, questions counted", same("count", &questions, &(QUESTIONS as u32)));
}

/// The list with a stretch of it replaced.
fn replaced(list: &[u16], stretch: Range<usize>, by: &[u16]) -> Vec<u16> {
    [&list[..stretch.start], by, &list[stretch.end..]].concat()
}

fn with_another_number(list: &[u16]) -> Vec<Vec<u16>> {
    let at = |at: usize| OTHER_NUMBERS.map(|number| replaced(list, at..at + 1, &[number]));
    (0..list.len()).flat_map(at).collect()
}

fn with_one_left_out(list: &[u16]) -> Vec<Vec<u16>> {
    (0..list.len()).map(|at| replaced(list, at..at + 1, &[])).collect()
}

fn with_one_doubled(list: &[u16]) -> Vec<Vec<u16>> {
    (0..list.len()).map(|at| replaced(list, at..at, &[list[at]])).collect()
}

fn with_one_inserted(list: &[u16]) -> Vec<Vec<u16>> {
    (0..=list.len()).flat_map(|at| ENTRIES.map(|entry| replaced(list, at..at, &[entry]))).collect()
}

fn with_two_exchanged(list: &[u16]) -> Vec<Vec<u16>> {
    let exchanged = |first: usize, second: usize| {
        let mut list = list.to_vec();
        list.swap(first, second);
        list
    };
    (0..list.len()).flat_map(|second| (0..second).map(move |first| exchanged(first, second))).collect()
}

/// What is done to a question in every way that there is.
type Change = fn(&[u16]) -> Vec<Vec<u16>>;
const CHANGES: [(&str, Change); 5] = [
    ("one entry another number", with_another_number),
    ("one entry left out", with_one_left_out),
    ("one entry doubled", with_one_doubled),
    ("one entry inserted", with_one_inserted),
    ("two entries exchanged", with_two_exchanged),
];

/// Trees over groups 1 to 3 without `I`, of more than four leaves, and lists of such entries.
fn random_lists(report: &mut Report) {
    let mut random = Random::new(29);
    for _ in 0..RANDOM_TREES {
        for (kind, least, most) in [("a tree of five leaves", 5, 5), ("a tree of six to ten leaves", 6, 10)] {
            let leaves = random.between(least, most);
            let shape = Shape::any(Operators::WithoutIntersection, &mut random);
            tried(kind, &[shape.tree(leaves, &[1, 2, 3], &mut random)], report);
        }
        let length = random.between(8, 20);
        let list = (0..length).map(|_| random.pick(&ENTRIES)).collect();
        tried("random list of 8 to 20 entries", &[list], report);
    }
    for _ in 0..RANDOM_LISTS {
        let length = random.between(4, 9);
        let list = (0..length).map(|_| random.pick(&ENTRIES)).collect();
        tried("random list of 4 to 9 entries", &[list], report);
    }
}

/// A question with numbers behind it or before it. Some of the lengths would be a question's own if their low eight or
/// sixteen bits were all that is looked at, and some of the lists are trees.
fn longer_lists(question: &[u16], report: &mut Report) {
    let own = question.len();
    let lengths = (8..=20).chain([256 + own, 8191, 8192, 65_536, 65_536 + own, 70_000]);
    for more in lengths.map(|length| length - own) {
        for pair in [[0, 0], [1, 1], [1, 65_001], [2, 65_002], [65_001, 65_001]] {
            let added: Vec<u16> = pair.into_iter().cycle().take(more).collect();
            let lists = [[question, &added].concat(), [&added, question].concat()];
            tried("a question within a longer list", &lists, report);
        }
    }
}

/// A tree of so many leaves to the left or to the right, with groups and operators in turn.
fn chain(leaves: usize, to_the_left: bool) -> Vec<u16> {
    let groups = ENTRIES[..3].iter().copied().cycle().take(leaves);
    let operators = ENTRIES[3..].iter().copied().cycle().take(leaves - 1);
    if to_the_left {
        let mut groups = groups;
        groups.next().into_iter().chain(groups.zip(operators).flat_map(|(group, operator)| [group, operator])).collect()
    } else {
        groups.chain(operators).collect()
    }
}

/// Chains of few leaves, about 256 and 65,536 leaves and some beyond, and about 8,191 and 70,000 numbers.
fn chains(report: &mut Report) {
    let edges = [1, 256, 4093, 35_000, 65_536];
    for leaves in edges.into_iter().flat_map(|edge| edge..edge + 8) {
        tried("a chain", &[false, true].map(|to_the_left| chain(leaves, to_the_left)), report);
    }
}

pub fn run(report: &mut Report) {
    every_list(report);
    for list in (0..=3).flat_map(|length| all_lists(&SHORT_LIST_NUMBERS, length)) {
        tried("short list", &[list], report);
    }
    for question in questions::all() {
        for (kind, change) in CHANGES {
            tried(kind, &change(question), report);
        }
    }
    random_lists(report);
    for index in [0, 2, 3, 20, 21, 236, 237, QUESTIONS - 1] {
        longer_lists(&questions::all()[index], report);
    }
    chains(report);
}

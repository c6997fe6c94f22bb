//! `lift` about an `I`: as the parent, the grandparent and the node above T, needed and not needed, beside the other
//! refusals. The numbers due are worked out by hand.

use crate::faults::choices;
use crate::inputs::same;
use crate::lift_tests::{compare, four_parts, step_by_words, tree_of, Frames, Input, FAULTS, WITHOUT_D};
use reference::calls::TREE_BUFFER;
use reference::check::ensure;
use reference::random::Random;
use reference::report::Report;
use reference::shape::{difference, intersection, padded, union};
use reference::tree::{DIFFERENCE, INTERSECTION, MAXIMUM_NODES, UNION};

/// The parent is an `I`, the grandparent each operator on either side.
pub const PARENT: [&str; 12] =
    ["AB&C+", "BA&C+", "CAB&+", "CBA&+", "AB&C-", "BA&C-", "CAB&-", "CBA&-", "AB&C&", "BA&C&", "CAB&&", "CBA&&"];

/// The grandparent is an `I`, the parent each other operator on either side.
pub const GRANDPARENT: [&str; 8] = ["AB+C&", "BA+C&", "CAB+&", "CBA+&", "AB-C&", "BA-C&", "CAB-&", "CBA-&"];

/// States 1 to 4, and what one step makes of them.
pub const WITHIN: [(&str, &str); 8] = [
    ("AB+C+", "ABC++"),
    ("BA+C+", "ABC++"),
    ("CAB++", "ABC++"),
    ("CBA++", "ABC++"),
    ("CAB+-", "CB-A-"),
    ("CBA+-", "CB-A-"),
    ("AB-C-", "ABC+-"),
    ("BA-C-", "BC-A-"),
];

/// D beside a word's tree, by each operator on either side.
fn with_d(word: &str) -> [String; 6] {
    ["+", "-", "&"].map(|sign| [format!("{word}D{sign}"), format!("D{word}{sign}")]).concat().try_into().expect("six")
}

/// An `I` above a word's tree, on either side.
pub fn under_intersection(word: &str) -> [String; 2] {
    [format!("{word}D&"), format!("D{word}&")]
}

/// A lift of the word's A by so many levels gets this number; nothing is written (`compare`).
fn answers(word: &str, levels: usize, number: u32, random: &mut Random, report: &mut Report) {
    let (tree, position) = tree_of(word, &four_parts(random));
    let answered = compare("about I", &Input { tree, position, levels, buffer: TREE_BUFFER }, report);
    report.test(&format!("lift, {word} by {levels} by hand"), same("number", &answered, &number));
}

/// The parent or the grandparent is an `I`: 27 at level 2, where 15 would come for want of D, and deeper; 14 before it.
fn parent_or_grandparent(random: &mut Random, report: &mut Report) {
    for word in PARENT.into_iter().chain(GRANDPARENT) {
        answers(word, 1, 27, random, report);
        answers(word, 2, 14, random, report);
        for deeper in with_d(word) {
            answers(&deeper, 1, 27, random, report);
            answers(&deeper, 2, 27, random, report);
            answers(&deeper, 3, 14, random, report);
        }
    }
}

/// The node above T is an `I`: states 5 to 9 are refused, in states 1 to 4 the step is made and the next one refused.
fn above_t(random: &mut Random, report: &mut Report) {
    for word in WITHOUT_D.iter().flat_map(|word| under_intersection(word)) {
        answers(&word, 1, 27, random, report);
        answers(&word, 2, 27, random, report);
        answers(&word, 3, 14, random, report);
    }
    for (given, lifted) in WITHIN {
        answers(given, 1, 0, random, report);
        for (given, lifted) in under_intersection(given).iter().zip(under_intersection(lifted)) {
            step_by_words(&Frames(Vec::new()), (given, &lifted), "states 1 to 4 under I", random, report);
            step_by_words(&Frames::random(random), (given, &lifted), "states 1 to 4 under I, deeper", random, report);
            answers(given, 2, 27, random, report);
            answers(given, 3, 14, random, report);
        }
    }
}

/// Letters of the nodes above a leaf from below, the levels and the number due.
const CHAINS: [(&str, usize, u32); 14] = [
    // State 3, under an I, is done up to the level below it.
    ("bbbbi", 1, 0),
    ("bbbbi", 3, 0),
    ("bbbbi", 4, 27),
    ("bbbbi", 5, 14),
    ("bbbbj", 3, 0),
    ("bbbbj", 4, 27),
    // State 9 under an I: one level less.
    ("ddbbj", 2, 0),
    ("ddbbj", 3, 27),
    ("ddbbi", 4, 27),
    // Whatever stands above the node above T plays no part.
    ("dddi", 1, 0),
    ("dddi", 2, 27),
    ("ddiii", 1, 27),
    // 15 at level 2 where there is no I, and 27 where one comes before.
    ("ddb", 2, 15),
    ("ddib", 2, 27),
];

fn chains(report: &mut Report) {
    for (letters, levels, number) in CHAINS {
        let (tree, position) = Frames::of_inputs(letters.chars()).around(&[8]);
        let answered = compare("chain about I", &Input { tree, position, levels, buffer: TREE_BUFFER }, report);
        report.test(&format!("lift, {letters} by {levels} by hand"), same("number", &answered, &number));
    }
    for (lowest, other, level, number) in
        [("bb", 'b', 100, 27), ("bb", 'b', 101, 0), ("dd", 'b', 101, 27), ("dd", 'b', 102, 0)]
    {
        let inputs = lowest.chars().chain(std::iter::repeat(other)).take(level - 1).chain(['i']);
        let (tree, position) = Frames::of_inputs(inputs).around(&[8]);
        let answered = compare("99 levels under I", &Input { tree, position, levels: 99, buffer: TREE_BUFFER }, report);
        report.test(&format!("lift, {lowest} from level {level} by hand"), same("number", &answered, &number));
    }
}

/// ((C−(A−B)) U D) with an `I` above, C and D of so many nodes: a step has C three times. The second step, in state 7,
/// is refused with 27.
fn copied_three_times(c: usize, d: usize) -> (Vec<u16>, usize) {
    let (c, d) = (padded(&[3], c), padded(&[4], d));
    let tree = union(&difference(&c, &difference(&[1], &[2])), &d);
    (intersection(&tree, &[5]), c.len())
}

/// 16 and 27, each before the other.
fn node_limit(report: &mut Report) {
    // The first step comes to 3 * 2,727 + 9 + D's nodes: 8,191 for one, 8,193 for three.
    let at_limit = copied_three_times(2727, 1);
    let past_limit = copied_three_times(2727, 3);
    let long = padded(&[3], 4001);
    let same_step = intersection(&difference(&long, &difference(&[1], &[2])), &[4]);
    let lifts = [
        ("8,191 nodes after one step", &at_limit.0, at_limit.1, 1, 0),
        ("27 after a step to 8,191 nodes", &at_limit.0, at_limit.1, 2, 27),
        ("8,193 nodes after one step", &past_limit.0, past_limit.1, 1, 16),
        ("16 before 27 of a later step", &past_limit.0, past_limit.1, 2, 16),
        ("27 before 16 of the same step", &same_step, long.len(), 1, 27),
    ];
    for (name, tree, position, levels, number) in lifts {
        let input = Input { tree: tree.clone(), position, levels, buffer: TREE_BUFFER };
        let answered = compare(&format!("node limit, {name}"), &input, report);
        report.test(&format!("lift, {name} by hand"), same("number", &answered, &number));
    }
    let (answer, out) = Input { tree: at_limit.0, position: at_limit.1, levels: 1, buffer: TREE_BUFFER }.call();
    let full = answer[1] as usize == MAXIMUM_NODES && out[MAXIMUM_NODES - 1] == INTERSECTION;
    report.test("lift, 8,191 nodes under an I by hand", ensure(full, "the tree is not full, or has no I at its end"));
}

/// 11, 12, 13 and 14 come before 27.
fn fault_order(report: &mut Report) {
    let (u, d, both) = (UNION, DIFFERENCE, INTERSECTION);
    let trees: [(u32, &[u16]); 5] = [
        (27, &[1, 2, both, 3, u]),
        (27, &[1, 2, d, 3, both]),
        (27, &[1, 2, d, 3, u, 4, both]),
        (0, &[1, 2, d, 3, d, 4, both]),
        (12, &[1, 2, d, 3, d, 4, 65_004]),
    ];
    for (none, tree) in trees {
        let fresh = || Input { tree: tree.to_vec(), position: 0, levels: 1, buffer: TREE_BUFFER };
        for (least, input) in choices(&FAULTS, none, fresh) {
            let number = if none == 12 { least.min(12) } else { least };
            let answered = compare("order of faults about I", &input, report);
            report.test("lift, order of faults about I by hand", same("number", &answered, &number));
        }
    }
}

pub fn run(report: &mut Report) {
    let mut random = Random::new(12);
    for _ in 0..20 {
        parent_or_grandparent(&mut random, report);
        above_t(&mut random, report);
    }
    chains(report);
    node_limit(report);
    fault_order(report);
}

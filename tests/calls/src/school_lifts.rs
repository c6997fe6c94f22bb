//! `lift_with`: lifts by schools' tables. The tree and the number due are worked out from the table's words.

use crate::faults::choices;
use crate::inputs::{count_intersection, count_last_group, filled, filled_after, numbers, same, same_buffer};
use crate::intersection_lifts::{under_intersection, GRANDPARENT, PARENT, WITHIN};
use crate::lift_tests::{done_lift, four_parts, random_lift, tree_of, Frames, Input, FAULTS, WITHOUT_D};
use calls::library::{self, Rows};
use reference::calls::{lift_with_call, TREE_BUFFER};
use reference::check::ensure;
use reference::random::Random;
use reference::report::Report;
use reference::shape::{intersection, padded, Operators, Shape};
use reference::table::{state_and_input, with_d, School, INPUTS, LINES, T_WORDS};
use reference::tree::{without_intersection, DIFFERENCE, INTERSECTION, MAXIMUM_NODES, UNION};
use reference::words::{copying_school, ours, random_school, Style};

/// Calls the library and the reference alike and compares everything.
pub fn compare(name: &str, rows: &Rows, input: &Input, report: &mut Report) -> u32 {
    let Input { tree, position, levels, buffer } = input;
    let (mut out, mut expected_out) = (filled(*buffer), filled(*buffer));
    let expected = lift_with_call(tree, *position, *levels, &mut expected_out, &rows.signs, &rows.lengths);
    let call = |tree: &[u16], position: usize, levels: usize, out: &mut [u16]| {
        library::lift_with(rows, tree, position, levels, out)
    };
    let answer = call(tree, *position, *levels, &mut out);
    let mut result = same("answer", &answer, &expected).and_then(|()| same_buffer(&out, &expected_out));
    if answer[0] == 0 {
        result = result.and_then(|()| done_lift(input, &answer, &out, &call));
    }
    let text = numbers("tree", tree) + &format!("position {position} levels {levels} buffer {buffer}\n");
    report.count(format!("lift with: {name}"));
    report.count(format!("lift with: answered {}", expected[0]));
    count_last_group("lift with", tree, answer[0], report);
    count_intersection("lift with", tree, answer[0], report);
    let files = [("txt", text.as_bytes()), ("signs", &rows.signs), ("lengths", &rows.lengths)];
    report.saved_test(&format!("lift with, {name}"), result, &files);
    answer[0]
}

/// A word's tree in these frames, and A's position in it.
fn whole(frames: &Frames, word: &str, parts: &[Vec<u16>; 4]) -> (Vec<u16>, usize) {
    let (part, position) = tree_of(word, parts);
    let (tree, end) = frames.around(&part);
    (tree, end + 1 - part.len() + position)
}

/// One step: from the first word's tree to the second's, in the same frames.
fn step(frames: &Frames, words: (&str, &str), name: &str, rows: &Rows, random: &mut Random, report: &mut Report) {
    let parts = four_parts(random);
    let (tree, position) = whole(frames, words.0, &parts);
    let (lifted, lifted_position) = whole(frames, words.1, &parts);
    let input = Input { tree, position, levels: 1, buffer: TREE_BUFFER };
    compare(name, rows, &input, report);
    let mut out = filled(TREE_BUFFER);
    let answer = library::lift_with(rows, &input.tree, position, 1, &mut out);
    let due = [0, lifted.len() as u32, lifted_position as u32, 1];
    let result = same("answer", &answer, &due);
    let result = result.and_then(|()| same_buffer(&out, &filled_after(TREE_BUFFER, &lifted)));
    report.test(&format!("lift with, {name} by the word {}", words.1), result);
}

/// A lift of the word's A by so many levels gets this number.
fn answers(word: &str, levels: usize, number: u32, rows: &Rows, random: &mut Random, report: &mut Report) {
    let (tree, position) = tree_of(word, &four_parts(random));
    let input = Input { tree, position, levels, buffer: TREE_BUFFER };
    let answered = compare("by hand", rows, &input, report);
    report.test(&format!("lift with, {word} by {levels} by hand"), same("number", &answered, &number));
}

/// Every state and input, T in each order of a union's operands: the school's word takes the place of T with D.
fn all_words(school: &School, random: &mut Random, report: &mut Report) {
    let rows = Rows::new(school);
    for (state, input) in (0..LINES).map(state_and_input) {
        let word = String::from_utf8_lossy(school.word(state, input));
        for t in T_WORDS[state - 1] {
            let given = with_d(t, input);
            let (none, some) = (Frames(Vec::new()), Frames::random(random));
            step(&none, (&given, &word), "a school's word at level 3", &rows, random, report);
            step(&some, (&given, &word), "a school's word deeper", &rows, random, report);
        }
    }
}

/// Level 2: our own entries in states 1 to 4, 15 in states 5 to 9.
fn level_2(school: &School, random: &mut Random, report: &mut Report) {
    let rows = Rows::new(school);
    for words in WITHIN {
        step(&Frames(Vec::new()), words, "our own entry at level 2", &rows, random, report);
        answers(words.0, 2, 14, &rows, random, report);
    }
    for word in WITHOUT_D {
        answers(word, 1, 15, &rows, random, report);
        answers(word, 2, 14, &rows, random, report);
    }
}

/// An `I` as the parent, the grandparent or the node above T: 27 in every state, before 15, and 14 before it.
fn about_intersections(school: &School, random: &mut Random, report: &mut Report) {
    let rows = Rows::new(school);
    for word in PARENT.into_iter().chain(GRANDPARENT) {
        answers(word, 1, 27, &rows, random, report);
        for input in INPUTS {
            answers(&with_d(word, input), 1, 27, &rows, random, report);
            answers(&with_d(word, input), 2, 27, &rows, random, report);
        }
    }
    for word in T_WORDS.concat().into_iter().flat_map(under_intersection) {
        for (levels, number) in [(1, 27), (2, 27), (3, 14)] {
            answers(&word, levels, number, &rows, random, report);
        }
        let (tree, position) = whole(&Frames::random(random), &word, &four_parts(random));
        let input = Input { tree, position, levels: 1, buffer: TREE_BUFFER };
        let answered = compare("I above T deeper", &rows, &input, report);
        report.test(&format!("lift with, {word} deeper by hand"), same("number", &answered, &27));
    }
}

/// T with D under an `I`: a step by the school's word, and 27 for the next one.
fn next_step(school: &School, random: &mut Random, report: &mut Report) {
    let rows = Rows::new(school);
    for (state, input) in (0..LINES).map(state_and_input) {
        let given = with_d(random.pick(T_WORDS[state - 1]), input);
        for word in under_intersection(&given) {
            for (levels, number) in [(1, 0), (2, 27), (3, 27), (4, 14)] {
                answers(&word, levels, number, &rows, random, report);
            }
        }
    }
}

/// A tree of so many nodes.
fn tree_of_nodes(nodes: usize, random: &mut Random) -> Vec<u16> {
    let groups: Vec<u16> = (1..=8).collect();
    Shape::any(Operators::WithoutIntersection, random).tree(nodes.div_ceil(2), &groups, random)
}

/// Parts with which a word comes to `result` nodes: small ones, but for the letter that the word has most often, and A.
fn parts_for(word: &[u8], result: usize, random: &mut Random) -> Option<[Vec<u16>; 4]> {
    let count = |letter: u8| word.iter().filter(|&&sign| sign == letter).count();
    let copied = *b"BCD".iter().max_by_key(|&&letter| count(letter))?;
    let mut sizes = [0, 1, 1, 1].map(|least| least * (2 * random.below(20) + 1));
    let nodes = |sizes: &[usize; 4]| {
        word.iter().map(|sign| sizes.get(usize::from(sign.wrapping_sub(b'A'))).unwrap_or(&1)).sum()
    };
    let rest: usize = nodes(&sizes);
    let most = result.checked_sub(rest)? / count(copied);
    sizes[usize::from(copied - b'A')] += (most - random.below(most.min(40) + 1)) / 2 * 2;
    let rest: usize = nodes(&sizes);
    sizes[0] = result.checked_sub(rest).filter(|&size| size > 0)?;
    (sizes.iter().sum::<usize>() + 3 <= MAXIMUM_NODES).then(|| sizes.map(|size| tree_of_nodes(size, random)))
}

/// The nodes of a result and the number due. The last two would be few in 16 bits.
const RESULTS: [(usize, u32); 5] =
    [(MAXIMUM_NODES, 0), (MAXIMUM_NODES + 2, 16), (2 * MAXIMUM_NODES + 1, 16), (65_537, 16), (73_727, 16)];

/// How often a result of so many nodes must have been tried.
pub fn least_counts() -> Vec<(String, usize)> {
    RESULTS.iter().map(|(result, _)| (format!("lift with: result of {result} nodes"), 30)).collect()
}

/// 16 on both sides, and for many more nodes, counted by the word's letters.
fn node_limit(school: &School, random: &mut Random, report: &mut Report) {
    let rows = Rows::new(school);
    for (state, input) in (0..LINES).map(state_and_input) {
        let word = school.word(state, input);
        let given = with_d(random.pick(T_WORDS[state - 1]), input);
        for (result, number) in RESULTS {
            let Some(parts) = parts_for(word, result, random) else { continue };
            let (tree, position) = tree_of(&given, &parts);
            let lift = Input { tree: tree.clone(), position, levels: 1, buffer: TREE_BUFFER };
            let answered = compare(&format!("result of {result} nodes"), &rows, &lift, report);
            report.test("lift with, number at the node limit", same("number", &answered, &number));
            // Two nodes more and an `I` above: 27 for the second step, 16 before it.
            let under = intersection(&tree, &[8]);
            let lift = Input { tree: under, position, levels: 2, buffer: TREE_BUFFER };
            let due = if tree.len() + 2 > MAXIMUM_NODES { 12 } else { 16 };
            let answered = compare("node limit under I", &rows, &lift, report);
            report.test("lift with, 16 before 27 of a later step", same("number", &answered, &due));
        }
    }
}

/// Parts of 2,601 nodes as B, C and D, under an `I`: 27, also where the word would have them more than once.
fn intersection_before_limit(school: &School, report: &mut Report) {
    let long = padded(&[1], 2601);
    let parts = [vec![3], long.clone(), long.clone(), long];
    for word in T_WORDS.concat().into_iter().flat_map(under_intersection) {
        let (tree, position) = tree_of(&word, &parts);
        let input = Input { tree, position, levels: 1, buffer: TREE_BUFFER };
        let answered = compare("27 before 16", &Rows::new(school), &input, report);
        report.test("lift with, 27 before 16 of the same step", same("number", &answered, &27));
    }
}

/// By our own words as a school's, every lift is our own unless an `I` plays a part.
fn by_our_words(input: &Input, report: &mut Report) {
    if !without_intersection(&input.tree) {
        return;
    }
    let (own, own_out) = input.call();
    let mut out = filled(input.buffer);
    let answer = library::lift_with(&Rows::new(&ours()), &input.tree, input.position, input.levels, &mut out);
    let result = same("answer", &answer, &own).and_then(|()| same_buffer(&out, &own_out));
    report.test("lift with, our own words", result);
}

/// 11, 12, 13 and 14 in their order, before 15, 16 and 27.
fn fault_order(school: &School, report: &mut Report) {
    let (u, d, both) = (UNION, DIFFERENCE, INTERSECTION);
    let trees: [(u32, &[u16]); 5] = [
        (0, &[1, 2, d, 3, u, 4, u]),
        (0, &[1, 2, u, 3, u]),
        (15, &[1, 2, d, 3, u]),
        (27, &[1, 2, u, 3, u, 4, both]),
        (27, &[1, 2, both, 3, u, 4, u]),
    ];
    for (none, tree) in trees {
        let fresh = || Input { tree: tree.to_vec(), position: 0, levels: 1, buffer: TREE_BUFFER };
        for (number, input) in choices(&FAULTS, none, fresh) {
            let answered = compare("order of faults", &Rows::new(school), &input, report);
            report.test("lift with, order of faults by hand", same("number", &answered, &number));
        }
    }
}

pub fn run(report: &mut Report) {
    report.test("lift with, the call", ensure(library::HAS_LIFT_WITH, "the library has no lift_with_call"));
    let mut random = Random::new(41);
    let mut schools = vec![ours()];
    for style in [Style::Short, Style::Any, Style::Long] {
        schools.extend((0..10).map(|_| random_school(style, &mut random)));
    }
    schools.extend(b"BCDBCD".map(|letter| copying_school(letter, &mut random)));
    let rows: Vec<Rows> = schools.iter().map(Rows::new).collect();
    for _ in 0..5000 {
        let input = random_lift(&mut random);
        compare("random", &rows[random.below(rows.len())], &input, report);
        by_our_words(&input, report);
    }
    for school in &schools {
        all_words(school, &mut random, report);
        level_2(school, &mut random, report);
        about_intersections(school, &mut random, report);
        next_step(school, &mut random, report);
        node_limit(school, &mut random, report);
        intersection_before_limit(school, report);
        fault_order(school, report);
    }
}

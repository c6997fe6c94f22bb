//! `lift`: random lifts, state 9, level 2, chains, the node limit, the edges of groups and the order of faults. Those
//! about an `I` are in `intersection_lifts`.

use crate::faults::{choices, Fault};
use crate::inputs::{
    buffer_length, chain, count_intersection, count_last_group, filled, filled_after, list, numbers, same, same_buffer,
};
use calls::library;
use reference::calls::{lift_call, LiftAnswer, TREE_BUFFER};
use reference::check::{ensure, table};
use reference::gather::numbered;
use reference::lift::lift;
use reference::random::Random;
use reference::report::Report;
use reference::shape::{join, levels_of_nodes, Operators, Shape, GROUP_EDGES};
use reference::tree::{groups, Nodes, Operator, DIFFERENCE, INTERSECTION, LAST_GROUP, MAXIMUM_NODES, UNION};

#[derive(Clone)]
pub struct Input {
    pub tree: Vec<u16>,
    pub position: usize,
    pub levels: usize,
    pub buffer: usize,
}

impl Input {
    /// The library's answer and the buffer after it.
    pub fn call(&self) -> (LiftAnswer, Vec<u16>) {
        let mut out = filled(self.buffer);
        (library::lift(&self.tree, self.position, self.levels, &mut out), out)
    }
}

/// The part that ends at a position, and its level.
fn part(tree: &[u16], position: usize) -> (&[u16], usize) {
    let size = Nodes::parse(tree).expect("a tree").size(position);
    (&tree[position + 1 - size..=position], levels_of_nodes(tree)[position])
}

/// A tree's table; over more than eight groups they are put into eight classes, and equivalent trees stay so.
fn meaning(tree: &[u16], groups: &[u16]) -> [u64; 4] {
    let class = |number: u16| if number <= LAST_GROUP { number % 8 + 1 } else { number };
    let tree: Vec<u16> = numbered(tree, groups).into_iter().map(class).collect();
    table(&tree, &[1, 2, 3, 4, 5, 6, 7, 8])
}

/// A lift of the library: the tree, the position, the levels and the buffer.
pub type Call<'a> = &'a dyn Fn(&[u16], usize, usize, &mut [u16]) -> LiftAnswer;

/// The tree and A's position after as many lifts of one level, each of which sees A's state in the tree that it is given.
fn single_lifts(input: &Input, call: Call) -> Result<(Vec<u16>, usize), String> {
    let (mut tree, mut at) = (input.tree.clone(), input.position);
    for level in 1..=input.levels {
        let mut out = filled(TREE_BUFFER);
        let [number, length, position, _] = call(&tree, at, 1, &mut out).map(|number| number as usize);
        ensure(number == 0, &format!("single lift {level} is refused with {number}"))?;
        (tree, at) = (out[..length].to_vec(), position);
    }
    Ok((tree, at))
}

/// What must hold of every done lift, whatever its steps: looks as many as levels, A whole and so many levels higher,
/// an equivalent tree, and the same tree as by single lifts.
pub fn done_lift(input: &Input, answer: &LiftAnswer, out: &[u16], call: Call) -> Result<(), String> {
    let [_, length, position, looks] = answer.map(|number| number as usize);
    let lifted = &out[..length];
    let (given_part, level) = part(&input.tree, input.position);
    same("looks", &looks, &input.levels)?;
    same("A and its level", &part(lifted, position), &(given_part, level - input.levels))?;
    let groups = groups(&input.tree);
    same("table", &meaning(lifted, &groups), &meaning(&input.tree, &groups))?;
    let (tree, at) = single_lifts(input, call)?;
    same("nodes and position by single lifts", &(tree.len(), at), &(length, position))?;
    same_buffer(&tree, lifted)
}

/// Calls the library and the reference alike and compares everything.
pub fn compare(name: &str, input: &Input, report: &mut Report) -> u32 {
    let mut expected_out = filled(input.buffer);
    let expected = lift_call(&input.tree, input.position, input.levels, &mut expected_out);
    let (answer, out) = input.call();
    let mut result = same("answer", &answer, &expected).and_then(|()| same_buffer(&out, &expected_out));
    if answer[0] == 0 {
        result = result.and_then(|()| done_lift(input, &answer, &out, &library::lift));
    }
    let rest = format!("position {} levels {} buffer {}\n", input.position, input.levels, input.buffer);
    let text = numbers("tree", &input.tree) + &rest;
    report.count(format!("lift: {name}"));
    report.count(format!("lift: answered {}", expected[0]));
    count_last_group("lift", &input.tree, answer[0], report);
    count_intersection("lift", &input.tree, answer[0], report);
    report.saved_test(&format!("lift, {name}"), result, &[("txt", text.as_bytes())]);
    answer[0]
}

pub fn random_lift(random: &mut Random) -> Input {
    let tree = list(8, random);
    let none = random.pick(&[tree.len(), 8190, 8191, usize::MAX]);
    let position = if random.one_in(12) { none } else { random.below(tree.len().max(1)) };
    let all_levels = if Nodes::parse(&tree).is_some() { levels_of_nodes(&tree) } else { Vec::new() };
    let level = all_levels.get(position).copied().unwrap_or(1);
    let wrong = random.pick(&[0, 99, level, usize::MAX]);
    let levels = if random.one_in(12) { wrong } else { random.between(1, level.saturating_sub(1).max(1)) };
    Input { tree, position, levels, buffer: buffer_length(TREE_BUFFER, random) }
}

/// Frames around a part, from the part up: the sibling, the operator, and whether the part is first.
pub struct Frames(pub Vec<(Vec<u16>, Operator, bool)>);

impl Frames {
    /// Frames by 01's input letters, and i and j for an `I` with the part as its left or right operand; each sibling is
    /// a leaf: group 1, group 2, and then groups 3 to 7 again and again.
    pub fn of_inputs(inputs: impl Iterator<Item = char>) -> Frames {
        let frame = |(input, group): (char, u16)| {
            let operator = match input {
                'a' | 'c' => Operator::Union,
                'b' | 'd' => Operator::Difference,
                _ => Operator::Intersection,
            };
            (vec![group], operator, matches!(input, 'a' | 'b' | 'i'))
        };
        Frames(inputs.zip((1..=2).chain((3..=7).cycle())).map(frame).collect())
    }

    pub fn random(random: &mut Random) -> Frames {
        let groups: Vec<u16> = (1..=8).collect();
        let operators = Operators::any(random);
        let frame = |random: &mut Random| {
            let leaves = random.between(1, 400);
            let sibling = Shape::any(operators, random).tree(leaves, &groups, random);
            (sibling, operators.pick(random), random.one_in(2))
        };
        Frames((0..random.between(3, 6)).map(|_| frame(random)).collect())
    }

    /// The whole tree, and the part's position in it.
    pub fn around(&self, part: &[u16]) -> (Vec<u16>, usize) {
        let mut position = part.len() - 1;
        let mut tree = part.to_vec();
        for (sibling, operator, part_first) in &self.0 {
            tree = if *part_first { join(&tree, sibling, *operator) } else { join(sibling, &tree, *operator) };
            position += if *part_first { 0 } else { sibling.len() };
        }
        (tree, position)
    }
}

/// A lift whose result has exactly so many nodes: A is never copied, so A's size decides.
fn lift_to(result: usize, random: &mut Random) -> Option<Input> {
    let frames = Frames::random(random);
    let levels = random.between(1, frames.0.len() - 1);
    let (tree, position) = frames.around(&[9]);
    let least = lift(&tree, position, levels).ok()?.tree.len();
    let size = result.checked_sub(least - 1)?;
    let part = Shape::any(Operators::any(random), random).tree(size.div_ceil(2), &[9], random);
    let (tree, position) = frames.around(&part);
    (tree.len() <= MAXIMUM_NODES).then_some(Input { tree, position, levels, buffer: TREE_BUFFER })
}

/// State 9 under inputs a to d, and what one step makes of it (02, Ticket 2). Operands come first.
const STATE_9: [(&str, &str); 4] =
    [("CBA--D+", "CD+BD-A--"), ("CBA--D-", "CD-BA--"), ("DCBA--+", "CD+BD-A--"), ("DCBA---", "DC-DDB--A-+")];

/// States 5 to 9 without D.
pub const WITHOUT_D: [&str; 8] = ["AB+C-", "BA+C-", "AB-C+", "CAB-+", "BA-C+", "CBA-+", "CAB--", "CBA--"];

/// The tree that a word stands for when these are A to D, and A's position in it.
pub fn tree_of(word: &str, parts: &[Vec<u16>; 4]) -> (Vec<u16>, usize) {
    let (mut tree, mut position) = (Vec::new(), 0);
    for sign in word.bytes() {
        match sign {
            b'+' => tree.push(UNION),
            b'-' => tree.push(DIFFERENCE),
            b'&' => tree.push(INTERSECTION),
            letter => tree.extend(&parts[usize::from(letter - b'A')]),
        }
        if sign == b'A' {
            position = tree.len() - 1;
        }
    }
    (tree, position)
}

/// A to D, each with two groups of its own.
pub fn four_parts(random: &mut Random) -> [Vec<u16>; 4] {
    [[1, 2], [3, 4], [5, 6], [7, 8]].map(|groups| {
        let leaves = random.between(1, 20);
        Shape::any(Operators::any(random), random).tree(leaves, &groups, random)
    })
}

/// One step with frames above the first word's tree or without, beside the tree of the second word.
pub fn step_by_words(frames: &Frames, words: (&str, &str), name: &str, random: &mut Random, report: &mut Report) {
    let parts = four_parts(random);
    let whole = |word: &str| {
        let (part, position) = tree_of(word, &parts);
        let (tree, end) = frames.around(&part);
        (tree, end + 1 - part.len() + position)
    };
    let (tree, position) = whole(words.0);
    let (expected, expected_position) = whole(words.1);
    let input = Input { tree, position, levels: 1, buffer: TREE_BUFFER };
    compare(name, &input, report);
    let (answer, out) = input.call();
    let due = [0, expected.len() as u32, expected_position as u32, 1];
    let result = same("answer", &answer, &due).and_then(|()| same_buffer(&out, &expected));
    report.test(&format!("lift, {name} by hand"), result);
}

/// A lift whose last step is at level 2 in states 5 to 9.
fn level_2(word: &str, levels: usize, random: &mut Random, report: &mut Report) {
    let (tree, position) = tree_of(word, &four_parts(random));
    let answered = compare("level 2", &Input { tree, position, levels, buffer: TREE_BUFFER }, report);
    report.test("lift, level 2 by hand", same("number", &answered, &15));
}

fn states(random: &mut Random, report: &mut Report) {
    for _ in 0..100 {
        for words in STATE_9 {
            step_by_words(&Frames(Vec::new()), words, "state 9 at level 3", random, report);
            step_by_words(&Frames::random(random), words, "state 9 deeper", random, report);
            // The first step leads to state 9 or 7.
            level_2(words.0, 2, random, report);
        }
        for word in WITHOUT_D {
            level_2(word, 1, random, report);
        }
    }
}

/// A leaf is lifted by 99 levels, from level 100 to 1 if there is such a step, or from level 101 to 2.
fn long_chains(report: &mut Report) {
    let leaf = 8;
    let state_9: &[u16] = &[leaf, DIFFERENCE, DIFFERENCE];
    let state_7: &[u16] = &[leaf, DIFFERENCE, UNION];
    // The lowest two inputs, the others in turn, the answer from level 100, and the end of the tree from level 101.
    let chains = [
        ("bb", "b", 0, &[DIFFERENCE][..]), // ((x−1)−2)−..: state 3 at every step
        ("dd", "d", 15, state_7),          // 1−(2−(..−x)): states 9 and 7 in turn
        ("dd", "a", 15, state_9),          // state 9 at every step, here and below
        ("dd", "b", 15, state_9),
        ("dd", "c", 15, state_9),
        ("dd", "abc", 15, state_9),
    ];
    for (lowest, others, from_level_100, end) in chains {
        let input_at = |level: usize| {
            let inputs = lowest.chars().chain(others.chars().cycle()).take(level);
            let (tree, position) = Frames::of_inputs(inputs).around(&[leaf]);
            Input { tree, position, levels: 99, buffer: TREE_BUFFER }
        };
        let name = format!("99 levels, inputs {lowest} and {others}");
        let answered = compare(&name, &input_at(100), report);
        report.test(&format!("lift, {name}, from level 100"), same("number", &answered, &from_level_100));
        let input = input_at(101);
        compare(&name, &input, report);
        let (answer, out) = input.call();
        let tree = out.get(..answer[1] as usize).unwrap_or_default();
        let result = ensure(tree.ends_with(end), "the lift is not done or its tree ends otherwise");
        report.test(&format!("lift, {name}, from level 101"), result);
    }
}

fn limits(report: &mut Report) {
    for operator in [UNION, DIFFERENCE, INTERSECTION] {
        for to_the_left in [true, false] {
            let tree = chain(operator, to_the_left);
            for position in [0, 1, 4094, 4095, 4096, 8189, 8190, 8191] {
                for levels in [0, 1, 2, 98, 99, 4093, 4094, 4095] {
                    let input = Input { tree: tree.clone(), position, levels, buffer: TREE_BUFFER };
                    compare("chain of 8,191 nodes", &input, report);
                }
            }
        }
    }
    for extra in [vec![1], vec![1, UNION]] {
        let tree = [chain(UNION, true), extra].concat();
        let answered =
            compare("8,192 and 8,193 numbers", &Input { tree, position: 0, levels: 1, buffer: TREE_BUFFER }, report);
        report.test("lift, too many nodes", same("number", &answered, &12));
    }
}

/// Sample (v), and what its lift makes of it, with a number in place of one of its groups.
fn group_edge(number: u16, is_group: bool, replaced: u16, report: &mut Report) {
    let d = DIFFERENCE;
    let put = |list: [u16; 7]| list.map(|group| if group == replaced { number } else { group });
    let tree = put([3, 2, 1, d, d, 4, d]).to_vec();
    let input = Input { tree, position: 2, levels: 1, buffer: TREE_BUFFER };
    compare("edge of groups", &input, report);
    let (due, list) = if is_group { ([0, 7, 4, 1], &put([3, 4, d, 2, 1, d, d])[..]) } else { ([12, 0, 0, 0], &[][..]) };
    let (answer, out) = input.call();
    let result = same("answer", &answer, &due).and_then(|()| same_buffer(&out, &filled_after(TREE_BUFFER, list)));
    report.test(&format!("lift, {number} in place of {replaced} by hand"), result);
}

/// The faults that come before every step.
pub const FAULTS: [Fault<Input>; 4] = [
    (11, |input| input.buffer = TREE_BUFFER - 1),
    (12, |input| input.tree.push(1)),
    (13, |input| input.position = 1000),
    (14, |input| input.levels = 0),
];

fn fault_order(report: &mut Report) {
    // State 6 without D has number 15, with D it is done.
    for (none, tree) in [(15, vec![1, 2, DIFFERENCE, 3, UNION]), (0, vec![1, 2, DIFFERENCE, 3, UNION, 4, UNION])] {
        let fresh = || Input { tree: tree.clone(), position: 0, levels: 1, buffer: TREE_BUFFER };
        for (number, input) in choices(&FAULTS, none, fresh) {
            let answered = compare("order of faults", &input, report);
            report.test("lift, order of faults by hand", same("number", &answered, &number));
        }
    }
}

pub fn run(report: &mut Report) {
    let mut random = Random::new(3);
    for _ in 0..9000 {
        let input = random_lift(&mut random);
        compare("random", &input, report);
    }
    for result in [MAXIMUM_NODES, MAXIMUM_NODES + 2] {
        let due = if result > MAXIMUM_NODES { 16 } else { 0 };
        for input in (0..2300).filter_map(|_| lift_to(result, &mut random)) {
            let answered = compare(&format!("result of {result} nodes"), &input, report);
            report.test("lift, number at the node limit", same("number", &answered, &due));
        }
    }
    states(&mut random, report);
    long_chains(report);
    limits(report);
    for (number, is_group) in GROUP_EDGES {
        (1..=4).for_each(|replaced| group_edge(number, is_group, replaced, report));
    }
    fault_order(report);
}

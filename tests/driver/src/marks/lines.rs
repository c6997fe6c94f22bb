//! Random pairs with one line too many in the candidate's file: a lift or a mark, or a line of no form.

use super::pair::Pair;
use super::questions::right_tree;
use reference::random::Random;
use reference::refusal::{NO_SUCH_FORM, OUT_OF_PLACE};
use reference::shape::edge_groups;
use reference::sheet::print_tree;
use reference::tree::{groups, LAST_GROUP};

/// Lines of no form; with the number after the last group there is one more.
const BAD_LINES: [&str; 19] = [
    "",
    "X",
    "I\t1",
    "i",
    "G",
    "G\t0",
    "G\t01",
    "U\t",
    "E\t1",
    "L\t8191\t1",
    "L\t0\t0",
    "L\t0\t100",
    "L\t0",
    "L\t00\t1",
    "L",
    "K",
    "K\t0",
    "K\t01",
    "K\t1\t1",
];

pub fn bad_line(random: &mut Random) -> String {
    let kind = random.pick(&["G", "K"]);
    let past_last = format!("{kind}\t{}", LAST_GROUP + 1);
    if random.one_in(6) {
        past_last
    } else {
        random.pick(&BAD_LINES).to_string()
    }
}

/// A lift or a mark of good form; the mark's group is one of these, or any at an edge.
pub fn lift_or_mark(groups: &[u16], random: &mut Random) -> String {
    match random.below(4) {
        0 => format!("L\t{}\t{}", random.pick(&[0, 1, 8190]), random.pick(&[1, 2, 99])),
        1 => format!("L\t{}\t{}", random.between(0, 8190), random.between(1, 99)),
        2 => format!("K\t{}", random.pick(groups)),
        _ => format!("K\t{}", random.pick(&edge_groups())),
    }
}

/// A candidate's file line by line, without LF: the tree's and `E`.
pub fn lines(tree: &[u16]) -> Vec<String> {
    String::from_utf8(print_tree(tree)).expect("text").lines().map(str::to_string).collect()
}

pub fn joined(lines: &[String]) -> Vec<u8> {
    lines.iter().flat_map(|line| [line, "\n"]).collect::<String>().into_bytes()
}

/// Where a line is put into a candidate's file.
#[derive(Clone, Copy)]
pub enum Place {
    Before,
    Within,
    After,
    AfterEnd,
    /// After two or more trees that are not joined: it is the first line after the tree lines.
    Incomplete,
}

impl Place {
    /// How many lines come before it. Where the tree is to be incomplete, its other lines are taken out.
    fn prepare(self, lines: &mut Vec<String>, random: &mut Random) -> usize {
        let nodes = lines.len() - 1;
        match self {
            Place::Before => 0,
            Place::Within => random.between(1, nodes - 1),
            Place::After => nodes,
            Place::AfterEnd => nodes + 1,
            Place::Incomplete => {
                let mut trees = 0;
                let mut unjoined = |line: &String| {
                    trees += if line.starts_with('G') { 1 } else { -1 };
                    trees > 1
                };
                let counts: Vec<usize> = (1..=nodes).filter(|&count| unjoined(&lines[count - 1])).collect();
                let count = random.pick(&counts);
                lines.drain(count..nodes);
                count
            }
        }
    }
}

/// A lift or a mark of good form, for which the candidate's file has no place: 3, or 2 without its LF.
pub fn lift_or_mark_line(place: Place, random: &mut Random) -> Pair {
    let (question, tree) = right_tree(random);
    let mut lines = lines(&tree);
    let at = place.prepare(&mut lines, random);
    lines.insert(at, lift_or_mark(&groups(&question.tree), random));
    let mut bytes = joined(&lines);
    let mut number = OUT_OF_PLACE;
    if at + 1 == lines.len() && random.one_in(4) {
        bytes.pop();
        number = NO_SUCH_FORM;
    }
    Pair::new(question.print(), bytes).due_refusal(number, at + 1)
}

pub fn bad_form_line(random: &mut Random) -> Pair {
    let (question, tree) = right_tree(random);
    let mut lines = lines(&tree);
    let places = [Place::Before, Place::Within, Place::After, Place::AfterEnd, Place::Incomplete];
    let at = random.pick(&places).prepare(&mut lines, random);
    lines.insert(at, bad_line(random));
    Pair::new(question.print(), joined(&lines)).due_refusal(NO_SUCH_FORM, at + 1)
}

//! Random arguments, buffers, the library's code and what is saved of a failing call.

use calls::library;
use reference::calls::OLDER_CODE_BUFFER;
use reference::coder::INSTRUCTION_NUMBERS;
use reference::device::Device;
use reference::random::Random;
use reference::report::Report;
use reference::shape::{edge_number, some_groups, spread_groups, Operators, Shape};
use reference::tree::{without_intersection, DIFFERENCE, INTERSECTION, LAST_GROUP, MAXIMUM_NODES, UNION};

/// The leaves of a tree of the most nodes.
pub const MOST_LEAVES: usize = MAXIMUM_NODES.div_ceil(2);

/// A buffer with something in every place.
pub fn filled(length: usize) -> Vec<u16> {
    (0..length).map(|at| (at as u16).wrapping_mul(40503) | 1).collect()
}

/// Such a buffer after a call that wrote this list.
pub fn filled_after(length: usize, list: &[u16]) -> Vec<u16> {
    let mut buffer = filled(length);
    buffer[..list.len()].copy_from_slice(list);
    buffer
}

/// Mostly few leaves, at times as many as a tree may have.
pub fn leaves(random: &mut Random) -> usize {
    let most = random.pick(&[3, 8, 8, 20, 20, 60, 300, MOST_LEAVES]);
    random.between(1, most)
}

/// A tree over at most `most_groups` groups.
pub fn tree(most_groups: usize, random: &mut Random) -> Vec<u16> {
    let count = random.between(1, most_groups);
    let groups = some_groups(count, random);
    let leaves = leaves(random);
    Shape::any(Operators::any(random), random).tree(leaves, &groups, random)
}

/// A chain of 8,191 nodes to the left or to the right, each leaf another group, from the first to the last.
pub fn chain(operator: u16, to_the_left: bool) -> Vec<u16> {
    let leaves = spread_groups(MOST_LEAVES).into_iter();
    if to_the_left {
        leaves
            .flat_map(|leaf| [leaf, operator])
            .enumerate()
            .filter(|&(at, _)| at != 1)
            .map(|(_, number)| number)
            .collect()
    } else {
        leaves.chain(vec![operator; MOST_LEAVES - 1]).collect()
    }
}

/// Such a chain of each operator to either side.
pub fn chains() -> impl Iterator<Item = Vec<u16>> {
    let operators = [UNION, DIFFERENCE, INTERSECTION].into_iter();
    operators.flat_map(|operator| [false, true].map(|to_the_left| chain(operator, to_the_left)))
}

/// The library's code of a tree for this player.
pub fn code(device: Device, tree: &[u16]) -> Vec<u16> {
    let mut out = vec![0; OLDER_CODE_BUFFER];
    let [_, count] = match device {
        Device::Newer => library::encode(tree, &mut out),
        Device::Older => library::older_encode(tree, &mut out),
    };
    out.truncate(count as usize * INSTRUCTION_NUMBERS);
    out
}

/// A list that may not be a tree any more.
pub fn damaged(mut list: Vec<u16>, random: &mut Random) -> Vec<u16> {
    let at = random.below(list.len());
    let number = edge_number(random);
    match random.below(6) {
        0 => list.truncate(at),
        1 => list.insert(at, number),
        2 => {
            list.remove(at);
        }
        3 => list.extend([1, 2]),
        4 => list.extend(vec![1; MAXIMUM_NODES]),
        _ => list[at] = number,
    }
    list
}

/// A tree, or now and then a damaged one.
pub fn list(most_groups: usize, random: &mut Random) -> Vec<u16> {
    let tree = tree(most_groups, random);
    if random.one_in(6) {
        damaged(tree, random)
    } else {
        tree
    }
}

/// A buffer's length: mostly enough, at times not, at times more.
pub fn buffer_length(least: usize, random: &mut Random) -> usize {
    if random.one_in(10) {
        random.pick(&[0, 1, least / 2, least - 1])
    } else {
        least + random.pick(&[0, 0, 1, 1000])
    }
}

/// Numbers as a line of text, for saving.
pub fn numbers(name: &str, numbers: &[u16]) -> String {
    let text: Vec<String> = numbers.iter().map(u16::to_string).collect();
    format!("{name} ({}): {}\n", numbers.len(), text.join(" "))
}

/// The category of calls that are done with the last group in a list.
pub fn with_last_group(list: &str) -> String {
    format!("{list}: the last group, answered 0")
}

/// The category of calls that are refused so with the number after the last group in a list.
pub fn with_number_after(list: &str, number: u32) -> String {
    format!("{list}: the number after the last group, answered {number}")
}

/// The category of calls with an `I` in the list, by their answer.
pub fn with_intersection(list: &str, number: u32) -> String {
    format!("{list}: with I, answered {number}")
}

pub fn count_intersection(name: &str, list: &[u16], answered: u32, report: &mut Report) {
    if !without_intersection(list) {
        report.count(with_intersection(name, answered));
    }
}

/// Counts a call that belongs to a category of the last group.
pub fn count_last_group(name: &str, list: &[u16], answered: u32, report: &mut Report) {
    match answered {
        0 if list.contains(&LAST_GROUP) => report.count(with_last_group(name)),
        12 | 23 | 25 if list.contains(&(LAST_GROUP + 1)) => report.count(with_number_after(name, answered)),
        _ => {}
    }
}

/// The answer's number, and all numbers beside the expected ones.
pub fn same<Numbers: PartialEq + std::fmt::Debug>(
    name: &str,
    given: &Numbers,
    expected: &Numbers,
) -> Result<(), String> {
    if given == expected {
        Ok(())
    } else {
        Err(format!("{name}: {given:?} where {expected:?} is due"))
    }
}

/// A lent buffer afterwards, whole, beside what it should hold.
pub fn same_buffer<Number: PartialEq>(given: &[Number], expected: &[Number]) -> Result<(), String> {
    match given.iter().zip(expected).position(|(given, expected)| given != expected) {
        None => Ok(()),
        Some(at) => Err(format!("the buffer differs at {at}")),
    }
}

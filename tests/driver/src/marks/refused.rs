//! Random pairs in which a file is mostly refused, but for those of `lines`.

use super::drawings::{enlarged, leaves};
use super::lines::{bad_line, joined, lift_or_mark, lines};
use super::pair::{File, Pair};
use super::questions::{any_question, right_tree, smaller_right_tree};
use crate::damage::damaged;
use crate::generate::{noise, one_fault, whole};
use reference::gather::MAXIMUM_GROUPS;
use reference::random::Random;
use reference::refusal::*;
use reference::shape::{edge_groups, Operators, Shape};
use reference::sheet::{print_tree, read, Sheet, SHEET_BYTES};
use reference::tree::{groups, LAST_GROUP, MAXIMUM_NODES};

/// A group that is not one of these: often next to one of them, or the last.
fn foreign_group(groups: &[u16], random: &mut Random) -> u16 {
    loop {
        let group = match random.below(4) {
            0 => random.pick(groups) + 1,
            1 => random.pick(groups) - 1,
            2 => random.pick(&edge_groups()),
            _ if random.one_in(3) => LAST_GROUP,
            _ => random.between(1, usize::from(LAST_GROUP)) as u16,
        };
        if (1..=LAST_GROUP).contains(&group) && !groups.contains(&group) {
            return group;
        }
    }
}

/// A question, a tree with so many leaves of foreign groups but within 8 groups, and the first such leaf's line.
fn foreign_tree(most: usize, random: &mut Random) -> (Sheet, Vec<u16>, usize) {
    loop {
        let (question, mut tree) = smaller_right_tree(random);
        let own = groups(&question.tree);
        let mut positions = leaves(&tree, |_| true);
        random.shuffle(&mut positions);
        positions.truncate(random.between(1, most));
        for &position in &positions {
            tree[position] = foreign_group(&own, random);
        }
        if groups(&tree).len() <= MAXIMUM_GROUPS {
            let first = positions.iter().min().expect("a position") + 1;
            return (question, tree, first);
        }
    }
}

/// Groups that are not in the question's tree.
pub fn foreign(most: usize, random: &mut Random) -> Pair {
    let (question, tree, line) = foreign_tree(most, random);
    Pair::drawn(&question, &tree).due_refusal(FOREIGN_GROUP, line)
}

/// A group that is not in the question's tree, and a fault of reading after it, which comes first.
pub fn foreign_then_fault(random: &mut Random) -> Pair {
    let (question, tree, first) = foreign_tree(3, random);
    let mut lines = lines(&tree);
    let (nodes, after) = (tree.len(), random.between(first, lines.len()));
    let mut insert = |at: usize, line: String| {
        lines.insert(at, line);
        at + 1
    };
    let operator = random.pick(&["U", "D", "I"]).to_string();
    let (number, line) = match random.below(7) {
        0 => (NO_SUCH_FORM, insert(after, bad_line(random))),
        1 => (OUT_OF_PLACE, insert(after, lift_or_mark(&tree[first - 1..first], random))),
        2 => (TOO_FEW_TREES, insert(nodes, operator)),
        3 => (NOT_ONE_TREE, insert(nodes, format!("G\t{}", tree[0])) + 1),
        4 => (OUT_OF_PLACE, insert(nodes + 1, format!("G\t{}", tree[0]))),
        5 => {
            lines.truncate(nodes);
            (NO_END, nodes + 1)
        }
        _ => {
            lines[nodes].clear();
            (NO_SUCH_FORM, nodes + 1)
        }
    };
    Pair::new(question.print(), joined(&lines)).due_refusal(number, line)
}

/// Two nodes more than a candidate may have, or one more line after the most that he may have.
pub fn too_many_nodes(random: &mut Random) -> Pair {
    let (question, tree) = smaller_right_tree(random);
    let own = format!("G\t{}", tree[0]);
    let foreign = format!("G\t{}", foreign_group(&groups(&question.tree), random));
    let operator = random.pick(&["U", "D", "I"]).to_string();
    let (nodes, extra, number) = match random.below(6) {
        0 | 1 => (MAXIMUM_NODES + 2, vec![], TOO_MANY_NODES),
        2 => (MAXIMUM_NODES, vec![own], TOO_MANY_NODES),
        3 => (MAXIMUM_NODES, vec![foreign], TOO_MANY_NODES),
        4 => (MAXIMUM_NODES, vec![operator], TOO_FEW_TREES),
        // The operator has more than two trees waiting.
        _ => (MAXIMUM_NODES - 2, vec![own.clone(), own, operator], TOO_MANY_NODES),
    };
    let mut lines = lines(&enlarged(&tree, nodes, random));
    lines.splice(nodes..nodes, extra);
    Pair::new(question.print(), joined(&lines)).due_refusal(number, MAXIMUM_NODES + 1)
}

/// A candidate's tree of nine or more groups, the question's among them.
pub fn ninth_group(random: &mut Random) -> Pair {
    let question = any_question(random);
    let mut names = groups(&question.tree);
    while names.len() < MAXIMUM_GROUPS + 1 {
        names.push(foreign_group(&names, random));
    }
    let mut seen = Vec::new();
    let tree = loop {
        let leaves = random.pick(&[12, 30, 60]);
        let tree = Shape::any(Operators::any(random), random).tree(leaves, &names, random);
        if groups(&tree).len() > MAXIMUM_GROUPS {
            break tree;
        }
    };
    let mut ninth = |&position: &usize| {
        if tree[position] <= LAST_GROUP && !seen.contains(&tree[position]) {
            seen.push(tree[position]);
        }
        seen.len() > MAXIMUM_GROUPS
    };
    let position = (0..tree.len()).find(|position| ninth(position)).expect("a ninth group");
    Pair::drawn(&question, &tree).due_refusal(NINTH_GROUP, position + 1)
}

/// Lines are used up without `E`, at times at once.
pub fn no_end(random: &mut Random) -> Pair {
    let (question, tree) = right_tree(random);
    let mut lines = lines(&tree);
    lines.truncate(if random.one_in(8) { 0 } else { random.between(0, tree.len()) });
    Pair::new(question.print(), joined(&lines)).due_refusal(NO_END, lines.len() + 1)
}

/// The same bytes, filled up with lines of `E`, the last of which may lack its LF.
fn filled_up(mut bytes: Vec<u8>, count: usize) -> Vec<u8> {
    while bytes.len() < count {
        bytes.push(if bytes.ends_with(b"\n") { b'E' } else { b'\n' });
    }
    bytes
}

/// A right drawing with more lines after `E`, up to 60,000 bytes or past them.
pub fn many_bytes(random: &mut Random) -> Pair {
    let (question, tree) = right_tree(random);
    let count = SHEET_BYTES + random.pick(&[0, 0, 1, 1, 2, 9000]);
    let pair = Pair::new(question.print(), filled_up(print_tree(&tree), count));
    if count > SHEET_BYTES {
        pair.due_refusal(OVER_60000_BYTES, 0)
    } else {
        pair.due_refusal(OUT_OF_PLACE, tree.len() + 2)
    }
}

/// A right drawing with damage, a damaged whole sheet, noise, or a sheet with one fault.
pub fn damaged_candidate(random: &mut Random) -> Pair {
    let (question, tree) = right_tree(random);
    let candidate = match random.below(12) {
        0 => noise(random),
        1 => one_fault(random),
        2 => damaged(whole(random), random),
        _ => damaged(print_tree(&tree), random),
    };
    Pair::new(question.print(), candidate)
}

/// A question with damage and a drawing that was right before it.
pub fn damaged_question(random: &mut Random) -> Pair {
    let (question, tree) = right_tree(random);
    Pair::new(damaged(question.print(), random), print_tree(&tree))
}

fn refused_question(random: &mut Random) -> Vec<u8> {
    loop {
        let bytes = match random.below(12) {
            0 => noise(random),
            1 => filled_up(whole(random), SHEET_BYTES + random.pick(&[1, 2, 9000])),
            2..=6 => damaged(whole(random), random),
            _ => one_fault(random),
        };
        if read(&bytes).is_err() {
            return bytes;
        }
    }
}

/// A refused question with any candidate's file: an accepted one, a refused one, none.
pub fn refused_question_first(random: &mut Random) -> Pair {
    let question = refused_question(random);
    let candidate = match random.below(8) {
        0 => File::Missing,
        1 => File::Bytes(Vec::new()),
        2 => File::Bytes(refused_question(random)),
        3 => File::Bytes(question.clone()),
        4 => File::Bytes(noise(random)),
        5 => File::NotNamed,
        _ => File::Bytes(print_tree(&right_tree(random).1)),
    };
    Pair { candidate, ..Pair::new(question, Vec::new()) }
}

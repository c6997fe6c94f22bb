//! All small questions (02, request 10): every tree with one to four leaves over groups 1, 2 and 3, in 02's order, and
//! how the list and its lines are printed. The list is made once, by building every tree and sorting.

use crate::key::line;
use crate::refusal::{Refusal, NO_QUESTION};
use crate::shape::join;
use crate::sheet::decimal;
use crate::tree::{DIFFERENCE, TWO_OPERATORS, UNION};
use std::collections::HashMap;
use std::sync::OnceLock;

const GROUPS: [u16; 3] = [1, 2, 3];
const MOST_LEAVES: usize = 4;
/// The entries of a tree with the most leaves.
pub const MOST_ENTRIES: usize = 2 * MOST_LEAVES - 1;
/// The entries in 02's order.
pub const ORDER: [u16; 5] = [1, 2, 3, UNION, DIFFERENCE];

/// Every tree with so many leaves, in no order.
fn trees(leaves: usize) -> Vec<Vec<u16>> {
    if leaves == 1 {
        return GROUPS.map(|group| vec![group]).to_vec();
    }
    let mut all = Vec::new();
    for left_leaves in 1..leaves {
        let rights = trees(leaves - left_leaves);
        for left in trees(left_leaves) {
            for right in &rights {
                all.extend(TWO_OPERATORS.iter().map(|&operator| join(&left, right, operator)));
            }
        }
    }
    all
}

/// What lists are sorted by: the length, then the entries' places in 02's order.
fn rank(list: &[u16]) -> (usize, Vec<usize>) {
    let place = |entry: &u16| ORDER.iter().position(|other| other == entry).expect("a question's entry");
    (list.len(), list.iter().map(place).collect())
}

/// All questions in 02's order.
pub fn all() -> &'static [Vec<u16>] {
    static LIST: OnceLock<Vec<Vec<u16>>> = OnceLock::new();
    LIST.get_or_init(|| {
        let mut list: Vec<Vec<u16>> = (1..=MOST_LEAVES).flat_map(trees).collect();
        list.sort_by_cached_key(|tree| rank(tree));
        list
    })
}

fn indices() -> &'static HashMap<&'static [u16], usize> {
    static INDICES: OnceLock<HashMap<&'static [u16], usize>> = OnceLock::new();
    INDICES.get_or_init(|| all().iter().enumerate().map(|(index, tree)| (&tree[..], index)).collect())
}

pub fn tree_at(index: usize) -> Result<&'static [u16], Refusal> {
    all().get(index).map(Vec::as_slice).ok_or(NO_QUESTION)
}

pub fn index_of(list: &[u16]) -> Result<usize, Refusal> {
    indices().get(list).copied().ok_or(NO_QUESTION)
}

/// A line of the printed list: the index and the tree's entries.
fn question_line(index: usize, tree: &[u16]) -> String {
    let mut line = index.to_string();
    for &entry in tree {
        line.push('\t');
        match entry {
            UNION => line.push('U'),
            DIFFERENCE => line.push('D'),
            group => line += &group.to_string(),
        }
    }
    line + "\n"
}

/// What the questions program prints: the line of the index that its argument is, or the whole list without one.
/// An argument that is no decimal field counts as an index past the last.
pub fn questions_bytes(argument: Option<&[u8]>) -> Vec<u8> {
    let Some(field) = argument else {
        let lines = all().iter().enumerate().map(|(index, tree)| question_line(index, tree));
        return lines.collect::<String>().into_bytes();
    };
    let index = decimal(field, 0, all().len() - 1).ok_or(NO_QUESTION);
    match index.and_then(|index| Ok((index, tree_at(index)?))) {
        Ok((index, tree)) => question_line(index, tree).into_bytes(),
        Err(number) => {
            let mut bytes = Vec::new();
            line("NO", &[number.into()], &mut bytes);
            bytes
        }
    }
}

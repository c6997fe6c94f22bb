//! Marking a candidate's tree (02, request 5).

use crate::gather::rows;
use crate::key::line;
use crate::refusal::FOREIGN_GROUP;
use crate::sheet::{read, read_candidate, Fault, Sheet};
use crate::tree::{groups, sign, Sign};

/// The number in a `MARK` line.
#[derive(Clone, Copy, Debug, PartialEq, Eq, PartialOrd, Ord)]
pub enum Mark {
    Right = 0,
    OtherLamps = 1,
    NotGathered = 2,
}

/// The last number in a `NO` line.
#[derive(Clone, Copy, Debug, PartialEq, Eq, PartialOrd, Ord)]
pub enum File {
    Question = 0,
    Candidate = 1,
}

/// A fault and the file that it is in.
#[derive(Debug, PartialEq, Eq)]
pub struct Refused {
    pub fault: Fault,
    pub file: File,
}

/// What is known of a part's leaves.
#[derive(Clone, Copy, PartialEq, Eq)]
enum Leaves {
    NoneMarked,
    AllMarked,
    /// A node within holds every marked leaf and no other.
    Held,
    Scattered,
}

impl Leaves {
    fn join(self, other: Leaves) -> Leaves {
        use Leaves::*;
        match (self, other) {
            (NoneMarked, NoneMarked) => NoneMarked,
            (AllMarked, AllMarked) => AllMarked,
            (NoneMarked, AllMarked | Held) | (AllMarked | Held, NoneMarked) => Held,
            _ => Scattered,
        }
    }
}

/// Whether a node's leaves are all marked and no other leaf of the tree is.
fn is_gathered(tree: &[u16], marks: &[u16]) -> bool {
    let mut waiting = Vec::new();
    for &number in tree {
        match sign(number).expect("a tree's number") {
            Sign::Group(group) if marks.contains(&group) => waiting.push(Leaves::AllMarked),
            Sign::Group(_) => waiting.push(Leaves::NoneMarked),
            Sign::Operator(_) => {
                let right = waiting.pop().expect("a right operand");
                let left = waiting.last_mut().expect("a left operand");
                *left = left.join(right);
            }
        }
    }
    matches!(waiting[..], [Leaves::AllMarked | Leaves::Held])
}

/// The first line of the candidate's file whose group is not in the question's tree: each line is a node.
fn foreign_line(tree: &[u16], groups: &[u16]) -> Option<usize> {
    let foreign = |&number: &u16| matches!(sign(number), Some(Sign::Group(group)) if !groups.contains(&group));
    tree.iter().position(foreign).map(|position| position + 1)
}

/// The mark of a tree over the question's groups.
fn judge(question: &Sheet, groups: &[u16], tree: &[u16]) -> Mark {
    if rows(&question.tree, groups) != rows(tree, groups) {
        Mark::OtherLamps
    } else if !question.marks.is_empty() && !is_gathered(tree, &question.marks) {
        Mark::NotGathered
    } else {
        Mark::Right
    }
}

pub fn mark(question: &[u8], candidate: &[u8]) -> Result<Mark, Refused> {
    let question = read(question).map_err(|fault| Refused { fault, file: File::Question })?;
    let refused = |fault| Refused { fault, file: File::Candidate };
    let tree = read_candidate(candidate).map_err(refused)?;
    let groups = groups(&question.tree);
    match foreign_line(&tree, &groups) {
        Some(line) => Err(refused(Fault { number: FOREIGN_GROUP, line })),
        None => Ok(judge(&question, &groups, &tree)),
    }
}

/// The line that is printed for an answer.
pub fn print(answer: &Result<Mark, Refused>) -> Vec<u8> {
    let mut bytes = Vec::new();
    match answer {
        Ok(mark) => line("MARK", &[*mark as usize], &mut bytes),
        Err(Refused { fault, file }) => {
            line("NO", &[usize::from(fault.number), fault.line, *file as usize], &mut bytes)
        }
    }
    bytes
}

/// The line that is printed for the bytes of two files.
pub fn mark_bytes(question: &[u8], candidate: &[u8]) -> Vec<u8> {
    print(&mark(question, candidate))
}

//! A question's file with a candidate's, and the line that is due.

use crate::cases::text;
use reference::sheet::{print_tree, Sheet};

/// A file that the mark program is given.
#[derive(Clone)]
pub enum File {
    Bytes(Vec<u8>),
    /// A name that no file has.
    Missing,
    /// No name at all.
    NotNamed,
    /// A candidate's file with the tree of the key that the key program prints for the question.
    TreeOfKey,
}

#[derive(Clone)]
pub struct Pair {
    pub name: String,
    pub question: File,
    pub candidate: File,
    /// The line that is due, where it is known without the reference.
    pub due: Option<Vec<u8>>,
}

impl Pair {
    /// A random pair, which is named later.
    pub fn new(question: Vec<u8>, candidate: Vec<u8>) -> Pair {
        Pair { name: String::new(), question: File::Bytes(question), candidate: File::Bytes(candidate), due: None }
    }

    /// A question and the tree that a candidate drew.
    pub fn drawn(question: &Sheet, tree: &[u16]) -> Pair {
        Pair::new(question.print(), print_tree(tree))
    }

    /// The line is written as `text` has it.
    pub fn due(mut self, line: &str) -> Pair {
        self.due = Some(text(line));
        self
    }

    /// The candidate's file is to be refused.
    pub fn due_refusal(self, number: u16, line: usize) -> Pair {
        self.due(&format!("NO {number} {line} 1/"))
    }
}

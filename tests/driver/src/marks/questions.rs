//! Random questions, by what the key says of them.

use crate::generate::*;
use reference::compact;
use reference::gather::{gather, holder};
use reference::key::lifts;
use reference::random::Random;
use reference::refusal::NOT_GATHERABLE;
use reference::sheet::Sheet;
use reference::tree::{groups, Nodes, LAST_GROUP, MAXIMUM_NODES};

type MakeSheet = fn(&mut Random) -> Sheet;

/// A question whose marks can be gathered.
pub struct Gatherable {
    pub sheet: Sheet,
    /// The tree that its lifts leave.
    pub lifted: Vec<u16>,
    /// A gathered tree, by either builder.
    pub gathered: Vec<u16>,
}

impl Gatherable {
    pub fn groups(&self) -> Vec<u16> {
        groups(&self.sheet.tree)
    }

    /// Whether the gathered tree has a leaf that is not marked.
    pub fn has_unmarked_leaf(&self) -> bool {
        self.gathered.iter().any(|number| *number <= LAST_GROUP && !self.sheet.marks.contains(number))
    }

    /// Whether the tree after the lifts is not gathered yet.
    pub fn is_gathered_anew(&self) -> bool {
        holder(&Nodes::parse(&self.lifted).expect("a tree"), &self.sheet.marks).is_none()
    }
}

/// A question whose lifts bring the tree to the node limit.
fn grown_and_marked(random: &mut Random) -> Sheet {
    let mut sheet = grown(random);
    if sheet.marks.is_empty() {
        sheet.marks = groups(&sheet.tree);
    }
    sheet
}

pub fn gatherable_question(random: &mut Random) -> Gatherable {
    const MAKES: [MakeSheet; 7] =
        [marked, few_groups, gathered, distorted, gatherable, lifted_and_marked, lifted_and_marked];
    loop {
        let make = if random.one_in(50) { grown_and_marked } else { random.pick(&MAKES) };
        let sheet = make(random);
        let lifted = lifts(&sheet).tree;
        let builder = if random.one_in(2) { gather } else { compact::gather };
        if let Ok((gathered, _)) = builder(&lifted, &sheet.marks) {
            return Gatherable { sheet, lifted, gathered };
        }
    }
}

/// A question of which `wanted` holds.
pub fn gatherable_question_with(wanted: fn(&Gatherable) -> bool, random: &mut Random) -> Gatherable {
    loop {
        let question = gatherable_question(random);
        if wanted(&question) {
            return question;
        }
    }
}

pub fn question_answered_19(random: &mut Random) -> Sheet {
    const MAKES: [MakeSheet; 4] = [not_gatherable, not_gatherable, few_groups, lifted_and_marked];
    loop {
        let sheet = random.pick(&MAKES)(random);
        if gather(&lifts(&sheet).tree, &sheet.marks) == Err(NOT_GATHERABLE) {
            return sheet;
        }
    }
}

pub fn unmarked_question(random: &mut Random) -> Sheet {
    const MAKES: [MakeSheet; 4] = [plain, lifted, lifted_near_root, nested];
    random.pick(&MAKES)(random)
}

pub fn any_question(random: &mut Random) -> Sheet {
    match random.below(8) {
        0 => unmarked_question(random),
        1 => question_answered_19(random),
        _ => gatherable_question(random).sheet,
    }
}

/// A tree of three nodes or more that the question gets the mark 0 for.
pub fn right_tree(random: &mut Random) -> (Sheet, Vec<u16>) {
    loop {
        let Gatherable { sheet, gathered, .. } = gatherable_question(random);
        if gathered.len() > 1 {
            return (sheet, gathered);
        }
    }
}

/// The same, and the tree may grow.
pub fn smaller_right_tree(random: &mut Random) -> (Sheet, Vec<u16>) {
    loop {
        let (question, tree) = right_tree(random);
        if tree.len() < MAXIMUM_NODES {
            return (question, tree);
        }
    }
}

//! What a sheet and its key show; the driver counts it.

use crate::coder::{INSTRUCTION_NUMBERS, LOAD};
use crate::gather::holder;
use crate::key::{Held, Key, Lifts, RefusedStep};
use crate::lift::{is_intersection, Step, Table};
use crate::refusal::{INTERSECTION_ABOVE, NO_STEP, NO_SUCH_FORM, RESULT_TOO_LONG};
use crate::sheet::{read, Fault, Sheet};
use crate::tree::{without_intersection, Node, Nodes, Operator, LAST_GROUP, MAXIMUM_NODES};

#[derive(Clone, Copy, PartialEq, Eq, PartialOrd, Ord, Debug)]
pub enum Trait {
    Refused(u16),
    /// Refused with 2 for the number after the last group.
    GroupPastLast,
    /// Accepted with groups or marks of five digits, or with the last group.
    FiveDigitGroup,
    FiveDigitMark,
    LastGroup,
    /// A key with a group of five digits loaded into a register of two.
    LongestLoad,
    MostNodes,
    Marked(Marks),
    LiftDone,
    LiftRefused(usize),
    LiftedTo8191Nodes,
    /// Steps of done lifts by their state and, where there is a D, the input.
    StepAtLevel2(usize),
    StepAtLevel3(usize, char),
    StepDeeper(usize, char),
    /// Steps that another of the same lift follows.
    StepFollowed(usize, char),
    /// A step refused with 15, by its level and state.
    StepRefused(usize, usize),
    /// A step refused with 27 (a level past 4 counts as 4): by its level and the parent's letter; by its level and the
    /// letters of the parent and the grandparent; by its level, its state and the letter of the node above T.
    IntersectionAsParent(usize, char),
    IntersectionAsGrandparent(usize, char, char),
    IntersectionAboveT(usize, usize, char),
    /// A step refused with 27, by the state of the step before it and the letter that stood above T there.
    IntersectionAtNextStep(usize, char),
    /// Sheets whose tree has an `I`, by what happened to the marks, and all others.
    IntersectionAnd(Marks),
    NoIntersection,
    /// In a sheet's tree, an `I` above or below another node: the operator, whether the operand is the right one, and
    /// the operand's operator, none for a leaf.
    Operand(Operator, bool, Option<Operator>),
    /// A tree that is gathered already, with an `I` above the holder, and with an `I` in it.
    HolderBelowIntersection,
    HolderWithIntersection,
    /// A school's table refused, beside a sheet that would be accepted or refused.
    TableRefused(u16),
    TableAndSheetRefused(u16),
    /// Steps by a school's word that has one letter many times: done, and refused with 16.
    CopyingStep,
    CopyingStepTooLong,
    /// Accepted with a school's table, by whether the tree has an `I`.
    SchoolWithoutIntersection,
    SchoolWithIntersection,
}

/// So often a word names one letter that copies a part many times.
const MANY_COPIES: usize = 5;

/// What happened to the marks of an accepted sheet.
#[derive(Clone, Copy, PartialEq, Eq, PartialOrd, Ord, Debug)]
pub enum Marks {
    None,
    GatheredAlready,
    Gatherable,
    NotGatherable,
}

pub fn marks(sheet: &Sheet, after_lifts: &[u16], expected: &Key) -> Marks {
    let already = || holder(&Nodes::parse(after_lifts).expect("a tree"), &sheet.marks).is_some();
    match expected.held {
        None => Marks::None,
        Some(Held::Cannot(_)) => Marks::NotGatherable,
        Some(Held::At { .. }) if already() => Marks::GatheredAlready,
        Some(Held::At { .. }) => Marks::Gatherable,
    }
}

/// What a step that was made shows.
fn step_trait(step: &Step) -> Option<Trait> {
    let state = step.state()?;
    Some(match (step.level, step.above) {
        (_, None) => Trait::StepAtLevel2(state),
        (3, Some(letter)) => Trait::StepAtLevel3(state, letter),
        (_, Some(letter)) => Trait::StepDeeper(state, letter),
    })
}

/// What a step refused with 27 shows.
fn intersection_trait(step: &Step) -> Option<Trait> {
    let level = step.level.min(4);
    Some(match step.state() {
        Some(state) => Trait::IntersectionAboveT(level, state, step.above?),
        None if is_intersection(step.parent) => Trait::IntersectionAsParent(level, step.parent),
        None => Trait::IntersectionAsGrandparent(level, step.parent, step.grandparent),
    })
}

fn refused_step_traits(refused: &RefusedStep) -> Vec<Trait> {
    let RefusedStep { number, step, before } = refused;
    let own = match *number {
        NO_STEP => step.state().map(|state| Trait::StepRefused(step.level, state)),
        RESULT_TOO_LONG => None,
        _ => intersection_trait(step),
    };
    let before = before.filter(|_| *number == INTERSECTION_ABOVE);
    let next = before.and_then(|before| Some(Trait::IntersectionAtNextStep(before.state()?, before.above?)));
    own.into_iter().chain(next).collect()
}

pub fn lift_traits(lifts: &Lifts) -> Vec<Trait> {
    let mut traits: Vec<Trait> = lifts.steps.iter().filter_map(step_trait).collect();
    let followed = |step: &Step| Some(Trait::StepFollowed(step.state()?, step.above?));
    traits.extend(lifts.followed_steps.iter().filter_map(followed));
    traits.extend(lifts.refused_steps.iter().flat_map(refused_step_traits));
    let line = |&(number, _, _): &_| if number == 0 { Trait::LiftDone } else { Trait::LiftRefused(number) };
    traits.extend(lifts.lines.iter().map(line));
    if lifts.tree.len() == MAXIMUM_NODES {
        traits.push(Trait::LiftedTo8191Nodes);
    }
    traits
}

/// What a sheet and its code show of large group numbers.
pub fn group_traits(sheet: &Sheet, code: &[u16]) -> Vec<Trait> {
    let five_digits = |group: &u16| (10_000..=LAST_GROUP).contains(group);
    let mut instructions = code.chunks(INSTRUCTION_NUMBERS);
    let longest = |instruction: &[u16]| instruction[0] == LOAD && instruction[1] > 9 && five_digits(&instruction[2]);
    let traits = [
        (Trait::FiveDigitGroup, sheet.tree.iter().any(five_digits)),
        (Trait::FiveDigitMark, sheet.marks.iter().any(five_digits)),
        (Trait::LastGroup, sheet.tree.contains(&LAST_GROUP)),
        (Trait::LongestLoad, instructions.any(longest)),
    ];
    traits.into_iter().filter(|(_, shown)| *shown).map(|(trait_, _)| trait_).collect()
}

/// Each `I` with its operands, and each `I` that is an operand.
fn operand_traits(tree: &[u16]) -> Vec<Trait> {
    let nodes = Nodes::parse(tree).expect("a tree");
    let operator_of = |node: usize| match nodes.node(node) {
        Node::Leaf(_) => None,
        Node::Branch { operator, .. } => Some(operator),
    };
    let operands = |node: usize| match nodes.node(node) {
        Node::Leaf(_) => Vec::new(),
        Node::Branch { operator, left, right } => {
            [(false, left), (true, right)].map(|(is_right, below)| (operator, is_right, operator_of(below))).to_vec()
        }
    };
    let all = (0..nodes.count()).flat_map(operands);
    let both = Operator::Intersection;
    let shown = all.filter(|&(above, _, below)| above == both || below == Some(both));
    shown.map(|(above, is_right, below)| Trait::Operand(above, is_right, below)).collect()
}

/// Of a tree that is gathered: whether an `I` stands above the holder, and whether one is in it.
fn holder_traits(tree: &[u16], marks: &[u16]) -> Vec<Trait> {
    let nodes = Nodes::parse(tree).expect("a tree");
    let Some(holder) = holder(&nodes, marks) else { return Vec::new() };
    let part = |node: usize| node + 1 - nodes.size(node)..=node;
    let is_both = |node: usize| matches!(nodes.node(node), Node::Branch { operator: Operator::Intersection, .. });
    let above = (holder + 1..nodes.count()).any(|node| is_both(node) && part(node).contains(&holder));
    let inside = part(holder).any(is_both);
    let traits = [(Trait::HolderBelowIntersection, above), (Trait::HolderWithIntersection, inside)];
    traits.into_iter().filter(|(_, shown)| *shown).map(|(trait_, _)| trait_).collect()
}

/// What a sheet shows of `I`; `after_lifts` is the tree that its lifts leave.
pub fn intersection_traits(sheet: &Sheet, after_lifts: &[u16], marks: Marks) -> Vec<Trait> {
    if without_intersection(&sheet.tree) {
        return vec![Trait::NoIntersection];
    }
    let mut traits = vec![Trait::IntersectionAnd(marks)];
    traits.extend(operand_traits(&sheet.tree));
    if marks == Marks::GatheredAlready {
        traits.extend(holder_traits(after_lifts, &sheet.marks));
    }
    traits.sort();
    traits.dedup();
    traits
}

/// What a refused sheet shows.
pub fn refused_traits(bytes: &[u8], fault: &Fault) -> Vec<Trait> {
    let refused = Trait::Refused(fault.number);
    if fault.number != NO_SUCH_FORM {
        return vec![refused];
    }
    let line = bytes.split(|&byte| byte == b'\n').nth(fault.line - 1);
    let past_last = ["G", "K"].map(|kind| format!("{kind}\t{}", LAST_GROUP + 1));
    let for_group = past_last.iter().any(|past_last| line == Some(past_last.as_bytes()));
    [refused].into_iter().chain(for_group.then_some(Trait::GroupPastLast)).collect()
}

/// What a refused table shows beside this sheet.
pub fn refused_table_traits(bytes: &[u8], fault: &Fault) -> Vec<Trait> {
    match read(bytes) {
        Ok(_) => vec![Trait::TableRefused(fault.number)],
        Err(_) => vec![Trait::TableAndSheetRefused(fault.number)],
    }
}

/// Whether a step is by a school's word that names one letter many times.
fn is_copying(table: Table, step: &Step) -> bool {
    let (Table::School(school), Some(state), Some(input)) = (table, step.state(), step.above) else { return false };
    let word = school.word(state, input);
    b"BCD".iter().any(|letter| word.iter().filter(|sign| *sign == letter).count() >= MANY_COPIES)
}

/// What a sheet shows of a school's table.
pub fn school_traits(table: Table, sheet: &Sheet, lifts: &Lifts) -> Vec<Trait> {
    let Table::School(_) = table else { return Vec::new() };
    let without = without_intersection(&sheet.tree);
    let mut traits = vec![if without { Trait::SchoolWithoutIntersection } else { Trait::SchoolWithIntersection }];
    traits.extend(lifts.steps.iter().filter(|step| is_copying(table, step)).map(|_| Trait::CopyingStep));
    let too_long = lifts.refused_steps.iter().filter(|refused| refused.number == RESULT_TOO_LONG);
    traits.extend(too_long.filter(|refused| is_copying(table, &refused.step)).map(|_| Trait::CopyingStepTooLong));
    traits
}

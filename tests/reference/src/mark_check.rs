//! Checks of a printed mark: the line is the reference's, and what 02 says of it holds, found in other ways than
//! `mark` finds it: tables with all rows at once, the gathering's holder and verdict, lines counted in the bytes.

use crate::check::{ensure, table};
use crate::gather::{gather, holder};
use crate::key::lifts;
use crate::mark::{mark, print, File, Mark, Refused};
use crate::refusal::*;
use crate::sheet::{read, read_candidate, Fault, Sheet, SHEET_NODES};
use crate::tree::{groups, without_intersection, Nodes, LAST_GROUP, MAXIMUM_NODES};

/// What a question and a candidate's file show; the driver counts them.
#[derive(Clone, Copy, PartialEq, Eq, PartialOrd, Ord, Debug)]
pub enum Trait {
    Marked(Mark),
    Refused(File, Refusal),
    /// By the question: without marks, answered 19, with a lift that was done, with the last group.
    Unmarked(Mark),
    Answered19(Mark),
    Lifted(Mark),
    LastGroup(Mark),
    /// By the drawing: of 8,191 nodes, of more nodes than a sheet may have, without one of the marked groups.
    MostNodes(Mark),
    MoreNodesThanASheet(Mark),
    MarkMissing(Mark),
    /// The same lamps, but no marked leaf.
    NoMarkedLeaf,
    /// Right for a question with marks, and not its tree as written.
    RightOtherTree,
    /// Other lamps, and not gathered either.
    BothFaults,
    /// The group that is not in the question's tree is the last one, or next to one of the question's.
    ForeignLast,
    ForeignNeighbour,
    /// Out of its place: a lift, a mark.
    LiftLine,
    MarkLine,
    /// An `I` in the question alone, in the drawing alone, in both.
    IntersectionInQuestion(Mark),
    IntersectionInDrawing(Mark),
    IntersectionInBoth(Mark),
}

/// The first line, counted in the bytes, that has a group but none of these, and its number.
fn first_foreign_line<'a>(bytes: &'a [u8], groups: &[u16]) -> Option<(usize, &'a [u8])> {
    let own: Vec<Vec<u8>> = groups.iter().map(|group| format!("G\t{group}").into_bytes()).collect();
    let foreign = |line: &[u8]| line.starts_with(b"G") && !own.iter().any(|own| own == line);
    (1..).zip(bytes.split(|&byte| byte == b'\n')).find(|(_, line)| foreign(line))
}

/// The traits that are shown.
fn shown<const COUNT: usize>(traits: [(Trait, bool); COUNT]) -> Vec<Trait> {
    traits.into_iter().filter(|(_, shown)| *shown).map(|(trait_, _)| trait_).collect()
}

/// 26: at the first line with such a group, when nothing is refused in reading.
fn foreign(question: &Sheet, candidate: &[u8], fault: &Fault) -> Result<Vec<Trait>, String> {
    let groups = groups(&question.tree);
    let (number, line) = first_foreign_line(candidate, &groups).ok_or("26 without such a group")?;
    ensure(fault.line == number, &format!("26 is due at line {number}"))?;
    ensure(read_candidate(candidate).is_ok(), "26 before the file is read")?;
    let group: u16 = String::from_utf8_lossy(&line[2..]).parse().map_err(|_| "a group's line")?;
    Ok(shown([
        (Trait::ForeignLast, group == LAST_GROUP),
        (Trait::ForeignNeighbour, groups.iter().any(|&own| own.abs_diff(group) == 1)),
    ]))
}

/// A refusal of the candidate's file, where the question's was accepted.
fn refused_candidate(question: &Sheet, candidate: &[u8], refused: &Refused) -> Result<Vec<Trait>, String> {
    let Refused { fault, file } = refused;
    ensure(*file == File::Candidate, "an accepted question is refused")?;
    ensure(![MARK_NOT_IN_SHEET_TREE, MARK_TWICE].contains(&fault.number), "a mark is out of its place before 8 and 9")?;
    let mut traits = vec![Trait::Refused(File::Candidate, fault.number)];
    if fault.number == FOREIGN_GROUP {
        traits.extend(foreign(question, candidate, fault)?);
    }
    if fault.number == OUT_OF_PLACE {
        let line = candidate.split(|&byte| byte == b'\n').nth(fault.line - 1).unwrap_or_default();
        traits.extend(shown([(Trait::LiftLine, line.starts_with(b"L")), (Trait::MarkLine, line.starts_with(b"K"))]));
    }
    Ok(traits)
}

/// What the lamps and the gathering of a drawing come to.
struct Drawing {
    tree: Vec<u16>,
    same_lamps: bool,
    gathered: bool,
}

impl Drawing {
    fn new(question: &Sheet, candidate: &[u8]) -> Result<Drawing, String> {
        let allowed = groups(&question.tree);
        ensure(first_foreign_line(candidate, &allowed).is_none(), "marked with a group that is not in the question")?;
        let tree = read_candidate(candidate).map_err(|fault| format!("marked, where {} is due", fault.number))?;
        let same_lamps = table(&question.tree, &allowed) == table(&tree, &allowed);
        let nodes = Nodes::parse(&tree).ok_or("marked without a tree")?;
        let gathered = question.marks.is_empty() || holder(&nodes, &question.marks).is_some();
        Ok(Drawing { tree, same_lamps, gathered })
    }

    fn traits(&self, question: &Sheet, mark: Mark) -> Vec<Trait> {
        let Drawing { tree, same_lamps, gathered } = self;
        let marked = !question.marks.is_empty();
        let own = groups(tree);
        let missing = question.marks.iter().filter(|group| !own.contains(group)).count();
        let [asked, drawn] = [&question.tree, tree].map(|tree| !without_intersection(tree));
        shown([
            (Trait::Marked(mark), true),
            (Trait::Unmarked(mark), !marked),
            (Trait::LastGroup(mark), question.tree.contains(&LAST_GROUP)),
            (Trait::MostNodes(mark), tree.len() == MAXIMUM_NODES),
            (Trait::MoreNodesThanASheet(mark), tree.len() > SHEET_NODES),
            (Trait::MarkMissing(mark), missing > 0),
            (Trait::NoMarkedLeaf, marked && *same_lamps && missing == question.marks.len()),
            (Trait::RightOtherTree, marked && mark == Mark::Right && *tree != question.tree),
            (Trait::BothFaults, !same_lamps && !gathered),
            (Trait::IntersectionInQuestion(mark), asked && !drawn),
            (Trait::IntersectionInDrawing(mark), !asked && drawn),
            (Trait::IntersectionInBoth(mark), asked && drawn),
        ])
    }
}

/// A mark: the first fault in 02's order, never 0 for a question answered 19.
fn marked(question: &Sheet, candidate: &[u8], mark: Mark) -> Result<Vec<Trait>, String> {
    let drawing = Drawing::new(question, candidate)?;
    ensure((mark == Mark::OtherLamps) != drawing.same_lamps, "1 is due exactly for other lamps")?;
    let right = drawing.same_lamps && drawing.gathered;
    ensure((mark == Mark::Right) == right, "0 is due exactly for the same lamps in a gathered tree")?;
    ensure(mark != Mark::NotGathered || !question.marks.is_empty(), "2 without marks")?;
    let mut traits = drawing.traits(question, mark);
    let lifts = lifts(question);
    if lifts.lines.iter().any(|&(number, _, _)| number == 0) {
        traits.push(Trait::Lifted(mark));
    }
    if !question.marks.is_empty() && gather(&lifts.tree, &question.marks) == Err(NOT_GATHERABLE) {
        ensure(mark != Mark::Right, "0 for a question answered 19")?;
        traits.push(Trait::Answered19(mark));
    }
    Ok(traits)
}

/// The printed line is the one that is due; `source` says by what.
pub fn same_line(printed: &[u8], due: &[u8], source: &str) -> Result<(), String> {
    let [text, due_text] = [printed, due].map(String::from_utf8_lossy);
    ensure(printed == due, &format!("{text:?} is printed, {due_text:?} is due by {source}"))
}

/// Checks the line that a program printed for the bytes of two files.
pub fn printed_mark(question: &[u8], candidate: &[u8], printed: &[u8]) -> Result<Vec<Trait>, String> {
    let answer = mark(question, candidate);
    same_line(printed, &print(&answer), "the reference")?;
    match (read(question), answer) {
        (Err(fault), answer) => {
            let traits = vec![Trait::Refused(File::Question, fault.number)];
            let refused = Err(Refused { fault, file: File::Question });
            ensure(answer == refused, "a refused question is due before anything of the candidate's").map(|()| traits)
        }
        (Ok(question), Err(refused)) => refused_candidate(&question, candidate, &refused),
        (Ok(question), Ok(mark)) => marked(&question, candidate, mark),
    }
}

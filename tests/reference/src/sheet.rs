//! Reading a sheet (01, "The sheet"; 02's requests where they change it) or a candidate's file (02, request 5).

use crate::refusal::*;
use crate::tree::{Operator, DIFFERENCE, INTERSECTION, LAST_GROUP, MAXIMUM_NODES, UNION};

pub const SHEET_BYTES: usize = 60_000;
/// 02, request 1.
pub const SHEET_NODES: usize = 255;
const MAXIMUM_GROUPS: usize = 8;
const LAST_POSITION: usize = 8190;
const MAXIMUM_LEVELS: usize = 99;

/// In what the files that are read differ.
#[derive(Clone, Copy)]
struct Rules {
    nodes: usize,
    /// Whether lifts and marks have a place.
    lifts_and_marks: bool,
}

const SHEET_RULES: Rules = Rules { nodes: SHEET_NODES, lifts_and_marks: true };
const CANDIDATE_RULES: Rules = Rules { nodes: MAXIMUM_NODES, lifts_and_marks: false };

#[derive(Clone, Default, Debug, PartialEq, Eq)]
pub struct Sheet {
    pub tree: Vec<u16>,
    /// Position and levels.
    pub lifts: Vec<(usize, usize)>,
    pub marks: Vec<u16>,
}

/// A candidate's file: the tree as tree lines, closed by `E`.
pub fn print_tree(tree: &[u16]) -> Vec<u8> {
    Sheet { tree: tree.to_vec(), ..Sheet::default() }.print()
}

impl Sheet {
    /// The sheet's bytes, whether or not reading would accept them.
    pub fn print(&self) -> Vec<u8> {
        let tree_line = |&number: &u16| match number {
            UNION => "U\n".to_string(),
            DIFFERENCE => "D\n".to_string(),
            INTERSECTION => "I\n".to_string(),
            group => format!("G\t{group}\n"),
        };
        let mut text: String = self.tree.iter().map(tree_line).collect();
        text.extend(self.lifts.iter().map(|(position, levels)| format!("L\t{position}\t{levels}\n")));
        text.extend(self.marks.iter().map(|group| format!("K\t{group}\n")));
        (text + "E\n").into_bytes()
    }
}

/// A refusal's number and line.
#[derive(Debug, PartialEq, Eq)]
pub struct Fault {
    pub number: Refusal,
    pub line: usize,
}

enum Line {
    Group(u16),
    Operator(Operator),
    Lift(usize, usize),
    Mark(u16),
    End,
}

/// The places of a sheet, in order; `Closed` is after `E`.
#[derive(Clone, Copy, PartialEq, Eq, PartialOrd, Ord)]
enum Place {
    Tree,
    Lifts,
    Marks,
    End,
    Closed,
}

impl Line {
    fn place(&self) -> Place {
        match self {
            Line::Group(_) | Line::Operator(_) => Place::Tree,
            Line::Lift(..) => Place::Lifts,
            Line::Mark(_) => Place::Marks,
            Line::End => Place::End,
        }
    }
}

/// A decimal field without leading noughts, from `first` to `last`.
pub fn decimal(field: &[u8], first: usize, last: usize) -> Option<usize> {
    let digits = !field.is_empty() && field.iter().all(u8::is_ascii_digit);
    if !digits || field.len() > 5 || (field[0] == b'0' && field.len() > 1) {
        return None;
    }
    let value = field.iter().fold(0, |value, digit| value * 10 + usize::from(digit - b'0'));
    (first..=last).contains(&value).then_some(value)
}

fn group(field: &[u8]) -> Option<u16> {
    decimal(field, 1, usize::from(LAST_GROUP)).map(|group| group as u16)
}

/// The line's meaning, `None` for a line of no such form; `line` includes its LF if it has one.
fn parse_line(line: &[u8]) -> Option<Line> {
    let fields: Vec<&[u8]> = line.strip_suffix(b"\n")?.split(|&byte| byte == b'\t').collect();
    match fields[..] {
        [b"G", field] => group(field).map(Line::Group),
        [b"U"] => Some(Line::Operator(Operator::Union)),
        [b"D"] => Some(Line::Operator(Operator::Difference)),
        [b"I"] => Some(Line::Operator(Operator::Intersection)),
        [b"L", position, levels] => {
            Some(Line::Lift(decimal(position, 0, LAST_POSITION)?, decimal(levels, 1, MAXIMUM_LEVELS)?))
        }
        [b"K", field] => group(field).map(Line::Mark),
        [b"E"] => Some(Line::End),
        _ => None,
    }
}

/// What has been read so far.
struct Reader {
    rules: Rules,
    sheet: Sheet,
    groups: Vec<u16>,
    waiting: usize,
    place: Place,
}

impl Reader {
    fn line(&mut self, bytes: &[u8]) -> Result<(), Refusal> {
        let line = parse_line(bytes).ok_or(NO_SUCH_FORM)?;
        let placeless = !self.rules.lifts_and_marks && matches!(line, Line::Lift(..) | Line::Mark(_));
        if placeless || line.place() < self.place {
            return Err(OUT_OF_PLACE);
        }
        let first_after_tree = self.place == Place::Tree && line.place() != Place::Tree;
        if first_after_tree && self.waiting != 1 {
            return Err(NOT_ONE_TREE);
        }
        self.place = line.place();
        match line {
            Line::Group(group) => self.group(group)?,
            Line::Operator(operator) => self.operator(operator)?,
            Line::Lift(position, levels) => self.sheet.lifts.push((position, levels)),
            Line::Mark(group) => self.mark(group)?,
            Line::End => self.place = Place::Closed,
        }
        Ok(())
    }

    fn group(&mut self, group: u16) -> Result<(), Refusal> {
        self.node(group)?;
        if !self.groups.contains(&group) {
            if self.groups.len() == MAXIMUM_GROUPS {
                return Err(NINTH_GROUP);
            }
            self.groups.push(group);
        }
        self.waiting += 1;
        Ok(())
    }

    fn operator(&mut self, operator: Operator) -> Result<(), Refusal> {
        if self.waiting < 2 {
            return Err(TOO_FEW_TREES);
        }
        self.waiting -= 1;
        self.node(operator.number())
    }

    fn node(&mut self, number: u16) -> Result<(), Refusal> {
        if self.sheet.tree.len() == self.rules.nodes {
            return Err(TOO_MANY_NODES);
        }
        self.sheet.tree.push(number);
        Ok(())
    }

    fn mark(&mut self, group: u16) -> Result<(), Refusal> {
        if !self.groups.contains(&group) {
            return Err(MARK_NOT_IN_SHEET_TREE);
        }
        if self.sheet.marks.contains(&group) {
            return Err(MARK_TWICE);
        }
        self.sheet.marks.push(group);
        Ok(())
    }
}

fn read_by(rules: Rules, bytes: &[u8]) -> Result<Sheet, Fault> {
    if bytes.len() > SHEET_BYTES {
        return Err(Fault { number: OVER_60000_BYTES, line: 0 });
    }
    let mut reader = Reader { rules, sheet: Sheet::default(), groups: Vec::new(), waiting: 0, place: Place::Tree };
    let mut lines = 0;
    for line in bytes.split_inclusive(|&byte| byte == b'\n') {
        lines += 1;
        reader.line(line).map_err(|number| Fault { number, line: lines })?;
    }
    if reader.place != Place::Closed {
        return Err(Fault { number: NO_END, line: lines + 1 });
    }
    Ok(reader.sheet)
}

pub fn read(bytes: &[u8]) -> Result<Sheet, Fault> {
    read_by(SHEET_RULES, bytes)
}

/// The tree of a candidate's file.
pub fn read_candidate(bytes: &[u8]) -> Result<Vec<u16>, Fault> {
    read_by(CANDIDATE_RULES, bytes).map(|sheet| sheet.tree)
}

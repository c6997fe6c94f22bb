//! The lift (01, "The lift", and 02, Tickets 2, 6 and 7), as a rewriting of the frames above A.

use crate::refusal::*;
use crate::table::School;
use crate::tree::{Node, Nodes, Operator, MAXIMUM_NODES};

#[derive(Clone, Copy, PartialEq, Eq)]
enum Side {
    Left,
    Right,
}

/// A node above A: its operator, the side on which the part with A stands, and the other operand.
#[derive(Clone, Copy)]
struct Frame {
    operator: Operator,
    side: Side,
    sibling: usize,
}

/// part U sibling
fn part_union(sibling: usize) -> Frame {
    Frame { operator: Operator::Union, side: Side::Left, sibling }
}

/// sibling U part
fn union_part(sibling: usize) -> Frame {
    Frame { operator: Operator::Union, side: Side::Right, sibling }
}

/// part − sibling
fn part_minus(sibling: usize) -> Frame {
    Frame { operator: Operator::Difference, side: Side::Left, sibling }
}

/// sibling − part
fn minus_part(sibling: usize) -> Frame {
    Frame { operator: Operator::Difference, side: Side::Right, sibling }
}

impl Frame {
    /// 01's input letter for T in this frame. T I D and D I T, which have none there, are i and j.
    fn letter(self) -> char {
        match (self.operator, self.side) {
            (Operator::Union, Side::Left) => 'a',
            (Operator::Difference, Side::Left) => 'b',
            (Operator::Union, Side::Right) => 'c',
            (Operator::Difference, Side::Right) => 'd',
            (Operator::Intersection, Side::Left) => 'i',
            (Operator::Intersection, Side::Right) => 'j',
        }
    }
}

/// Whether a letter is an `I`'s.
pub fn is_intersection(letter: char) -> bool {
    matches!(letter, 'i' | 'j')
}

/// A's level before a step, and the letters of its parent, its grandparent and, if there is one, the node above T.
#[derive(Clone, Copy)]
pub struct Step {
    pub level: usize,
    pub parent: char,
    pub grandparent: char,
    pub above: Option<char>,
}

impl Step {
    /// 01's state; none where the parent or the grandparent is an `I`.
    pub fn state(self) -> Option<usize> {
        Some(match (self.parent, self.grandparent) {
            ('i' | 'j', _) | (_, 'i' | 'j') => return None,
            ('a' | 'c', 'a' | 'c') => 1,
            ('a' | 'c', 'd') => 2,
            ('b', 'b') => 3,
            ('d', 'b') => 4,
            ('a' | 'c', _) => 5,
            ('b', 'a' | 'c') => 6,
            ('d', 'a' | 'c') => 7,
            ('b', _) => 8,
            _ => 9,
        })
    }
}

/// The table by which a lift is done.
#[derive(Clone, Copy)]
pub enum Table<'a> {
    Ours,
    School(&'a School),
}

/// A tree taken apart at A: the nodes above A from the root down, and how many nodes it has.
struct Place {
    nodes: Nodes,
    part: usize,
    frames: Vec<Frame>,
    count: usize,
}

impl Place {
    /// The node at `position` of a parsed list.
    fn new(nodes: Nodes, position: usize) -> Place {
        let mut frames = Vec::new();
        let mut above = nodes.root();
        while above != position {
            let Node::Branch { operator, left, right } = nodes.node(above) else { unreachable!() };
            let (side, sibling, below) =
                if position <= left { (Side::Left, right, left) } else { (Side::Right, left, right) };
            frames.push(Frame { operator, side, sibling });
            above = below;
        }
        Place { count: nodes.count(), nodes, part: position, frames }
    }

    /// The next step of A, which is at level 2 or deeper.
    fn next_step(&self) -> Step {
        let level = self.frames.len();
        let letter = |nodes_up: usize| self.frames[level - nodes_up].letter();
        Step { level, parent: letter(1), grandparent: letter(2), above: (level > 2).then(|| letter(3)) }
    }

    /// Makes this step, A's next; refused with 27 for an `I`, with 15 for want of D.
    /// A school's words take the place of all steps that have a D.
    fn make(&mut self, step: Step, table: Table) -> Result<(), Refusal> {
        let state = step.state().ok_or(INTERSECTION_ABOVE)?;
        let grandparent = step.level - 2;
        let (b, c) = (self.frames[grandparent + 1].sibling, self.frames[grandparent].sibling);
        if step.above.is_none() || matches!(table, Table::Ours) {
            if let Some(frame) = self.step_within(state, b, c) {
                self.replace(grandparent, &[frame]);
                return Ok(());
            }
        }
        let letter = step.above.ok_or(NO_STEP)?;
        if is_intersection(letter) {
            return Err(INTERSECTION_ABOVE);
        }
        let above = grandparent - 1;
        let input = self.frames[above];
        let frames = match table {
            Table::Ours => self.step_with(state, b, c, input),
            Table::School(school) => self.step_by_word(school.word(state, letter), b, c, input.sibling),
        };
        self.replace(above, &frames);
        Ok(())
    }

    /// The two frames above A that a school's word has when these are B, C and D.
    fn step_by_word(&mut self, word: &[u8], b: usize, c: usize, d: usize) -> [Frame; 2] {
        // Of the operands that wait, the one with A has no node.
        let mut waiting: Vec<Option<usize>> = Vec::with_capacity(word.len());
        let mut frames = Vec::with_capacity(2);
        for sign in word {
            let operand = match sign {
                b'A' => None,
                b'B' => Some(b),
                b'C' => Some(c),
                b'D' => Some(d),
                _ => {
                    let operator = if *sign == b'+' { Operator::Union } else { Operator::Difference };
                    let (right, left) = (waiting.pop().expect("an operand"), waiting.pop().expect("an operand"));
                    self.join(operator, left, right, &mut frames)
                }
            };
            waiting.push(operand);
        }
        [frames[1], frames[0]]
    }

    /// A node of two operands; if one has A, there is a frame more above A.
    fn join(
        &mut self,
        operator: Operator,
        left: Option<usize>,
        right: Option<usize>,
        frames: &mut Vec<Frame>,
    ) -> Option<usize> {
        let (side, sibling) = match (left, right) {
            (Some(left), Some(right)) => return Some(self.nodes.branch(operator, left, right)),
            (None, sibling) => (Side::Left, sibling),
            (sibling, None) => (Side::Right, sibling),
        };
        frames.push(Frame { operator, side, sibling: sibling.expect("A stands once in a word") });
        None
    }

    /// States 1 to 4: the one frame that takes the place of two.
    fn step_within(&mut self, state: usize, b: usize, c: usize) -> Option<Frame> {
        match state {
            1 => Some(part_union(self.nodes.union(b, c))),
            2 => Some(minus_part(self.nodes.difference(c, b))),
            3 => Some(part_minus(self.nodes.union(b, c))),
            4 => Some(minus_part(self.nodes.difference(b, c))),
            _ => None,
        }
    }

    /// States 5 to 9: the two frames that take the place of three.
    /// In states 5 to 8, T is first the union of A's frame and a rest: then the input decides.
    fn step_with(&mut self, state: usize, b: usize, c: usize, input: Frame) -> [Frame; 2] {
        let d = input.sibling;
        let (own, rest) = match state {
            5 => (part_minus(c), self.nodes.difference(b, c)),
            6 => (part_minus(b), c),
            7 => (minus_part(b), c),
            8 => (minus_part(c), self.in_both(c, b)),
            _ => return self.step_in_state_9(b, c, input),
        };
        match input.letter() {
            'a' => [union_part(self.nodes.union(d, rest)), own],
            'b' => [part_union(self.nodes.difference(rest, d)), self.without(own, d)],
            'c' => [part_union(self.nodes.union(d, rest)), own],
            _ => [minus_part(self.nodes.difference(d, rest)), own],
        }
    }

    /// State 9, where T is C less A's frame (02, Ticket 2; 01 for input b).
    fn step_in_state_9(&mut self, b: usize, c: usize, input: Frame) -> [Frame; 2] {
        let d = input.sibling;
        match input.letter() {
            'a' | 'c' => [minus_part(self.nodes.union(c, d)), minus_part(self.nodes.difference(b, d))],
            'b' => [minus_part(self.nodes.difference(c, d)), minus_part(b)],
            _ => [union_part(self.nodes.difference(d, c)), minus_part(self.in_both(d, b))],
        }
    }

    /// x−(x−y)
    fn in_both(&mut self, x: usize, y: usize) -> usize {
        let outside = self.nodes.difference(x, y);
        self.nodes.difference(x, outside)
    }

    /// A's own frame when D is taken from its whole: (A−x)−D is A−(x U D), (x−A)−D is (x−D)−A.
    fn without(&mut self, own: Frame, d: usize) -> Frame {
        match own.side {
            Side::Left => part_minus(self.nodes.union(own.sibling, d)),
            Side::Right => minus_part(self.nodes.difference(own.sibling, d)),
        }
    }

    /// Puts frames in the place of those from `first` down to A.
    fn replace(&mut self, first: usize, frames: &[Frame]) {
        self.count -= self.count_of(&self.frames[first..]);
        self.count += self.count_of(frames);
        self.frames.truncate(first);
        self.frames.extend(frames);
    }

    fn count_of(&self, frames: &[Frame]) -> usize {
        frames.iter().map(|frame| 1 + self.nodes.size(frame.sibling)).sum()
    }

    fn position(&self) -> usize {
        let before = self.frames.iter().filter(|frame| frame.side == Side::Right);
        before.map(|frame| self.nodes.size(frame.sibling)).sum::<usize>() + self.nodes.size(self.part) - 1
    }

    /// The whole tree's list: what stands before the part, the part, and what comes after it.
    fn list(&self) -> Vec<u16> {
        let mut list = Vec::with_capacity(self.count);
        for frame in self.frames.iter().filter(|frame| frame.side == Side::Right) {
            self.nodes.write_postfix(frame.sibling, &mut list);
        }
        self.nodes.write_postfix(self.part, &mut list);
        for frame in self.frames.iter().rev() {
            if frame.side == Side::Left {
                self.nodes.write_postfix(frame.sibling, &mut list);
            }
            list.push(frame.operator.number());
        }
        list
    }
}

#[derive(Debug, Clone, PartialEq, Eq)]
pub struct Lifted {
    pub tree: Vec<u16>,
    pub position: usize,
    pub looks: usize,
}

/// The lifted tree, or 12 to 16 or 27.
pub fn lift(list: &[u16], position: usize, levels: usize) -> Result<Lifted, Refusal> {
    lift_by(Table::Ours, list, position, levels)
}

/// The same by any table.
pub fn lift_by(table: Table, list: &[u16], position: usize, levels: usize) -> Result<Lifted, Refusal> {
    lift_noting_steps(table, list, position, levels, &mut Vec::new())
}

/// The same, noting each step that is made or refused.
pub fn lift_noting_steps(
    table: Table,
    list: &[u16],
    position: usize,
    levels: usize,
    steps: &mut Vec<Step>,
) -> Result<Lifted, Refusal> {
    let nodes = Nodes::parse(list).ok_or(NOT_A_TREE)?;
    if position >= list.len() {
        return Err(NO_SUCH_POSITION);
    }
    let mut place = Place::new(nodes, position);
    if levels == 0 || levels >= place.frames.len() {
        return Err(LEVELS);
    }
    let mut looks = 0;
    for _ in 0..levels {
        let step = place.next_step();
        steps.push(step);
        place.make(step, table)?;
        looks += 1;
        if place.count > MAXIMUM_NODES {
            return Err(RESULT_TOO_LONG);
        }
    }
    Ok(Lifted { position: place.position(), looks, tree: place.list() })
}

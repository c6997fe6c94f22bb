//! Sheets whose lifts by a school's words bring the tree to exactly the node limit, or one node pair past it.

use reference::key::lifts_by;
use reference::lift::{lift_by, Table};
use reference::random::Random;
use reference::shape::{some_groups, Operators, Shape};
use reference::sheet::{Sheet, SHEET_NODES};
use reference::table::{state_and_input, tree_of, with_d, School, LINES, T_WORDS};
use reference::tree::MAXIMUM_NODES;

/// The left side of a line with the tree that is there as B, C or D.
struct Layer {
    line: usize,
    left: String,
    slot: u8,
}

impl Layer {
    fn any(random: &mut Random) -> Layer {
        let line = random.below(LINES);
        let (state, input) = state_and_input(line);
        Layer { line, left: with_d(random.pick(T_WORDS[state - 1]), input), slot: random.pick(b"BCD") }
    }

    /// The number of nodes that a word comes to: the tree in the slot has so many, A so many, every other part one.
    fn count(&self, word: &[u8], a: usize, slot: usize) -> usize {
        let nodes = |&sign: &u8| match sign {
            b'A' => a,
            sign if sign == self.slot => slot,
            _ => 1,
        };
        word.iter().map(nodes).sum()
    }

    /// The number of nodes before the tree in the slot.
    fn before(&self, a: usize) -> usize {
        let at = self.left.bytes().position(|sign| sign == self.slot).expect("the slot");
        self.count(&self.left.as_bytes()[..at], a, 0)
    }
}

/// A tree as written, what the lifts so far make of it, and those lifts' positions.
struct Growth<'a> {
    school: &'a School,
    groups: Vec<u16>,
    written: Vec<u16>,
    current: Vec<u16>,
    positions: Vec<usize>,
}

impl Growth<'_> {
    /// Puts the tree into a larger one and lifts A there.
    fn add(&mut self, layer: &Layer, a: &[u16], random: &mut Random) {
        let mut parts = [(); 4].map(|()| vec![random.pick(&self.groups)]);
        parts[0] = a.to_vec();
        let slot = usize::from(layer.slot - b'A');
        let mut whole = |tree: &[u16]| {
            parts[slot] = tree.to_vec();
            tree_of(layer.left.as_bytes(), &parts)
        };
        self.written = whole(&self.written).0;
        let (tree, position) = whole(&self.current);
        self.positions.iter_mut().for_each(|position| *position += layer.before(a.len()));
        self.positions.push(position);
        self.current = lift_by(Table::School(self.school), &tree, position, 1).map_or(tree, |lifted| lifted.tree);
    }

    /// The size of A with which the lift in this layer comes to `result` nodes, if a sheet has room for it.
    fn last_size(&self, layer: &Layer, result: usize) -> Option<usize> {
        let rest = layer.count(&self.school.words()[layer.line], 0, self.current.len());
        let size = result.checked_sub(rest).filter(|&size| size > 0)?;
        (self.written.len() + size + 5 <= SHEET_NODES).then_some(size)
    }

    fn sheet(&self) -> Sheet {
        let lifts = self.positions.iter().map(|&position| (position, 1)).collect();
        Sheet { tree: self.written.clone(), lifts, marks: Vec::new() }
    }
}

/// Layers are added as long as there is room; `None` if the last lift did not come to `result` nodes.
fn grown_to(school: &School, result: usize, random: &mut Random) -> Option<Sheet> {
    let groups = some_groups(8, random);
    let leaves = random.between(1, 40);
    let tree = Shape::any(Operators::any(random), random).tree(leaves, &groups, random);
    let mut growth = Growth { school, groups, written: tree.clone(), current: tree, positions: Vec::new() };
    for _ in 0..300 {
        let layer = Layer::any(random);
        if let Some(size) = growth.last_size(&layer, result) {
            let a = Shape::any(Operators::any(random), random).tree(size.div_ceil(2), &growth.groups, random);
            growth.add(&layer, &a, random);
            return Some(growth.sheet());
        }
        let next = layer.count(&school.words()[layer.line], 1, growth.current.len());
        if next > growth.current.len() && next < result && growth.written.len() + 6 < SHEET_NODES / 2 {
            let a = [random.pick(&growth.groups)];
            growth.add(&layer, &a, random);
        }
    }
    None
}

/// A sheet whose last lift has 8,191 nodes (done), or 8,193 (refused with 16).
pub fn grown_to_limit(school: &School, is_done: bool, random: &mut Random) -> Option<Sheet> {
    let (result, number) = if is_done { (MAXIMUM_NODES, 0) } else { (MAXIMUM_NODES + 2, 16) };
    let sheet = grown_to(school, result, random)?;
    let lifts = lifts_by(Table::School(school), &sheet);
    let (last, before) = lifts.lines.split_last()?;
    let all_done = before.iter().all(|line| line.0 == 0);
    let at_limit = !is_done || lifts.tree.len() == MAXIMUM_NODES;
    (all_done && last.0 == number && at_limit).then_some(sheet)
}

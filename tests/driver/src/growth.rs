//! Sheets whose lifts bring the tree to exactly the node limit, or one node pair past it, or to many registers.

use reference::lift::lift;
use reference::random::Random;
use reference::shape::{difference, some_groups, union, Operators, Shape};
use reference::sheet::{Sheet, SHEET_NODES};
use reference::tree::MAXIMUM_NODES;

/// A tree as written, what the lifts so far make of it, and those lifts' positions.
struct Growth {
    written: Vec<u16>,
    current: Vec<u16>,
    positions: Vec<usize>,
}

impl Growth {
    fn new(tree: Vec<u16>) -> Growth {
        Growth { written: tree.clone(), current: tree, positions: Vec::new() }
    }

    /// Puts the tree into a larger one, where `before` nodes come before it, and lifts a node there.
    fn add_layer(&mut self, layer: impl Fn(&[u16]) -> Vec<u16>, before: usize, position: usize) {
        self.written = layer(&self.written);
        let whole = layer(&self.current);
        self.positions.iter_mut().for_each(|position| *position += before);
        self.positions.push(position);
        self.current = lift(&whole, position, 1).map_or(whole, |lifted| lifted.tree);
    }

    /// C−(A−B) with D, A lifted: C, all that was there, is written three times.
    fn triple(&mut self, groups: &[u16], random: &mut Random) {
        let [a, b, d] = [(); 3].map(|()| [random.pick(groups)]);
        let cut = |tree: &[u16]| difference(tree, &difference(&a, &b));
        let count = self.current.len();
        match random.below(3) {
            0 => self.add_layer(|tree| union(&cut(tree), &d), 0, count),
            1 => self.add_layer(|tree| union(&d, &cut(tree)), 1, count + 1),
            _ => self.add_layer(|tree| difference(&d, &cut(tree)), 1, count + 1),
        }
    }

    /// ((A−B) U C)−D or ((B−A) U C)−D, A lifted: D, a tree of `leaves` leaves, is written twice.
    fn double_last(&mut self, leaves: usize, groups: &[u16], random: &mut Random) {
        let [a, b] = [(); 2].map(|()| [random.pick(groups)]);
        let d = Shape::any(Operators::any(random), random).tree(leaves, groups, random);
        let layer =
            |first: &[u16], second: &[u16], tree: &[u16]| difference(&union(&difference(first, second), tree), &d);
        if random.one_in(2) {
            self.add_layer(|tree| layer(&a, &b, tree), 3, 0);
        } else {
            self.add_layer(|tree| layer(&b, &a, tree), 3, 1);
        }
    }

    /// ((A U B)−C) U D, A lifted: C, all that was there, is written twice, and the tree needs one register more.
    fn double(&mut self, groups: &[u16], random: &mut Random) {
        let [a, b, d] = [(); 3].map(|()| [random.pick(groups)]);
        self.add_layer(|tree| union(&difference(&union(&a, &b), tree), &d), 3, 0);
    }

    /// The tree as written with its lifts.
    fn sheet(&self) -> Sheet {
        let lifts = self.positions.iter().map(|&position| (position, 1)).collect();
        Sheet { tree: self.written.clone(), lifts, marks: Vec::new() }
    }
}

/// The size of D for which the last lift comes to `result` nodes: six nodes are added besides D twice.
fn last_size(current: usize, result: usize) -> Option<usize> {
    let size = result.checked_sub(current + 6)? / 2;
    (size % 2 == 1).then_some(size)
}

/// The last lift's result has 8,191 nodes (done) or 8,193 (refused with 16): a tree never has an
/// even number of nodes. Also answers the tree that the lifts leave.
pub fn grown_to_limit(random: &mut Random) -> (Sheet, Vec<u16>) {
    let result = MAXIMUM_NODES + random.pick(&[0, 2]);
    let groups = some_groups(8, random);
    loop {
        let leaves = random.between(1, 52);
        let tree = Shape::any(Operators::any(random), random).tree(leaves, &groups, random);
        let mut growth = Growth::new(tree);
        while 3 * growth.current.len() < result {
            growth.triple(&groups, random);
        }
        let Some(size) = last_size(growth.current.len(), result) else { continue };
        if growth.written.len() + 5 + size > SHEET_NODES {
            continue;
        }
        growth.double_last(size.div_ceil(2), &groups, random);
        return (growth.sheet(), growth.current);
    }
}

/// Lifts that double a complete tree, whose leaves are at the level `height`, until it has over 4,000 nodes and needs
/// 11 or 12 registers.
pub fn grown_to_many_registers(height: usize, groups: &[u16], random: &mut Random) -> Sheet {
    let complete = (0..height).fold(vec![groups[0]], |half, _| difference(&half, &half));
    let mut growth = Growth::new(complete);
    // A doubling adds A, B, D and four operators.
    while 2 * growth.current.len() + 7 <= MAXIMUM_NODES {
        growth.double(groups, random);
    }
    growth.sheet()
}

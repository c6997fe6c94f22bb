//! What is tried of both coders: random trees, complete trees, chains, the limits and the order of faults.

use crate::faults::{choices, Fault};
use crate::inputs::{
    buffer_length, chain, count_intersection, count_last_group, filled, filled_after, list, numbers, same, same_buffer,
    MOST_LEAVES,
};
use reference::calls::EncodeAnswer;
use reference::coder::INSTRUCTION_NUMBERS;
use reference::random::Random;
use reference::report::Report;
use reference::shape::{Operators, Shape, GROUP_EDGES};
use reference::tree::{DIFFERENCE, INTERSECTION, LAST_GROUP, MAXIMUM_NODES, UNION};

type Call = fn(&[u16], &mut [u16]) -> EncodeAnswer;

/// A coder's call in the library, and the reference's.
pub struct Coder {
    pub name: &'static str,
    pub library: Call,
    pub reference: Call,
    /// The least buffer.
    pub buffer: usize,
    /// Code for the difference of two groups.
    pub difference: fn(u16, u16) -> Vec<u16>,
}

pub struct Input {
    pub tree: Vec<u16>,
    pub buffer: usize,
}

/// The complete tree with so many leaves, a power of two; each is the last group.
pub fn complete(leaves: usize) -> Vec<u16> {
    if leaves == 1 {
        return vec![LAST_GROUP];
    }
    let half = complete(leaves / 2);
    let operator = [UNION, DIFFERENCE, INTERSECTION][leaves.trailing_zeros() as usize % 3];
    [&half[..], &half, &[operator]].concat()
}

impl Coder {
    /// Compares the calls; answers the number and the highest register named.
    pub fn compare(&self, name: &str, input: &Input, report: &mut Report) -> (u32, u16) {
        let (mut out, mut expected_out) = (filled(input.buffer), filled(input.buffer));
        let expected = (self.reference)(&input.tree, &mut expected_out);
        let answer = (self.library)(&input.tree, &mut out);
        let result = same("answer", &answer, &expected).and_then(|()| same_buffer(&out, &expected_out));
        let text = numbers("tree", &input.tree) + &format!("buffer {}\n", input.buffer);
        report.count(format!("{}: {name}", self.name));
        report.count(format!("{}: answered {}", self.name, expected[0]));
        count_last_group(self.name, &input.tree, answer[0], report);
        count_intersection(self.name, &input.tree, answer[0], report);
        report.saved_test(&format!("{}, {name}", self.name), result, &[("txt", text.as_bytes())]);
        let code = &out[..(expected[1] as usize * INSTRUCTION_NUMBERS).min(out.len())];
        (answer[0], code.chunks(INSTRUCTION_NUMBERS).map(|instruction| instruction[1]).max().unwrap_or(0))
    }

    /// Compares with the least buffer.
    fn compare_tree(&self, name: &str, tree: Vec<u16>, report: &mut Report) -> (u32, u16) {
        self.compare(name, &Input { tree, buffer: self.buffer }, report)
    }

    /// In a buffer of this length the call answers so and writes these numbers only.
    pub fn by_hand(&self, input: &Input, answer: EncodeAnswer, code: &[u16], report: &mut Report) {
        let mut out = filled(input.buffer);
        let answered = (self.library)(&input.tree, &mut out);
        let buffer = filled_after(input.buffer, code);
        let result = same("answer", &answered, &answer).and_then(|()| same_buffer(&out, &buffer));
        let tree = &input.tree[..input.tree.len().min(20)];
        report.test(&format!("{}, {tree:?} by hand", self.name), result);
    }

    /// The tree's code is these instructions.
    pub fn coded(&self, tree: &[u16], code: &[u16], report: &mut Report) {
        let input = Input { tree: tree.to_vec(), buffer: self.buffer };
        self.by_hand(&input, [0, (code.len() / INSTRUCTION_NUMBERS) as u32], code, report);
        self.compare("operators", &input, report);
    }

    fn limits(&self, report: &mut Report) {
        for leaves in [1, 2, 4, 1024, 2048, MOST_LEAVES] {
            let (_, register) = self.compare_tree("complete tree", complete(leaves), report);
            let due = leaves.trailing_zeros() as u16;
            let name = format!("{}, registers of a complete tree", self.name);
            report.test(&name, same("highest register", &register, &due));
        }
        let operators = [UNION, DIFFERENCE, INTERSECTION].into_iter();
        for (operator, to_the_left) in operators.flat_map(|operator| [(operator, true), (operator, false)]) {
            for extra in [vec![], vec![1], vec![1, operator]] {
                let tree = [chain(operator, to_the_left), extra].concat();
                let due = if tree.len() > MAXIMUM_NODES { (12, 0) } else { (0, 1) };
                let answered = self.compare_tree("chain", tree, report);
                report.test(&format!("{}, chain by hand", self.name), same("number and register", &answered, &due));
            }
        }
    }

    /// A number as the left and as the right leaf.
    fn group_edge(&self, number: u16, is_group: bool, report: &mut Report) {
        for (left, right) in [(number, 2), (2, number)] {
            let input = Input { tree: vec![left, right, DIFFERENCE], buffer: self.buffer };
            let code = if is_group { (self.difference)(left, right) } else { vec![] };
            let answer = if is_group { [0, (code.len() / INSTRUCTION_NUMBERS) as u32] } else { [12, 0] };
            self.by_hand(&input, answer, &code, report);
            self.compare("edge of groups", &input, report);
        }
    }

    /// The numbers beside the operators' are none.
    fn no_operators(&self, report: &mut Report) {
        for number in [0, LAST_GROUP + 1, UNION - 1, INTERSECTION + 1, u16::MAX] {
            let (answered, _) = self.compare_tree("operators", vec![1, 2, number], report);
            report.test(&format!("{}, {number} as an operator by hand", self.name), same("number", &answered, &12));
        }
    }

    fn fault_order(&self, report: &mut Report) {
        let faults: [Fault<Input>; 2] = [(20, |input| input.buffer -= 1), (12, |input| input.tree.insert(0, UNION))];
        for (least, input) in choices(&faults, 0, || Input { tree: vec![1, 2, UNION], buffer: self.buffer }) {
            // 01 lists 20 before 12 here.
            let number = if input.buffer < self.buffer { 20 } else { least };
            let (answered, _) = self.compare("order of faults", &input, report);
            report.test(&format!("{}, order of faults by hand", self.name), same("number", &answered, &number));
        }
    }

    /// So many random trees, a sixth of them damaged, so many of the most nodes, and all that is fixed.
    pub fn run(&self, random_trees: usize, largest_trees: usize, report: &mut Report) {
        let mut random = Random::new(5);
        for _ in 0..random_trees {
            let input = Input { tree: list(20, &mut random), buffer: buffer_length(self.buffer, &mut random) };
            self.compare("random", &input, report);
        }
        for _ in 0..largest_trees {
            let groups: Vec<u16> = (1..=LAST_GROUP).collect();
            let operators = Operators::any(&mut random);
            let tree = Shape::any(operators, &mut random).tree(MOST_LEAVES, &groups, &mut random);
            self.compare_tree("8,191 nodes", tree, report);
        }
        self.limits(report);
        self.no_operators(report);
        GROUP_EDGES.iter().for_each(|&(number, is_group)| self.group_edge(number, is_group, report));
        self.fault_order(report);
    }
}

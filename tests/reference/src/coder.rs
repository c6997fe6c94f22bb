//! Coding a tree (01, "The instructions").

use crate::refusal::*;
use crate::tree::{Node, Nodes, Operator};

pub const LOAD: u16 = 1;
pub const ADD: u16 = 2;
pub const CUT: u16 = 3;
pub const BOTH: u16 = 4;
pub const REGISTERS: u16 = 13;
pub const INSTRUCTION_NUMBERS: usize = 4;

struct Coder<'a> {
    nodes: &'a Nodes,
    needs: Vec<u8>,
    code: Vec<u16>,
    /// For each node, the instructions before its own.
    before: Vec<usize>,
}

/// The registers that each node needs.
pub fn needs(nodes: &Nodes) -> Vec<u8> {
    let mut needs: Vec<u8> = Vec::with_capacity(nodes.count());
    for node in 0..nodes.count() {
        needs.push(match nodes.node(node) {
            Node::Leaf(_) => 1,
            Node::Branch { left, right, .. } if needs[left] == needs[right] => needs[left] + 1,
            Node::Branch { left, right, .. } => needs[left].max(needs[right]),
        });
    }
    needs
}

/// The kind of instruction that works out an operator.
pub fn kind_of(operator: Operator) -> u16 {
    match operator {
        Operator::Union => ADD,
        Operator::Difference => CUT,
        Operator::Intersection => BOTH,
    }
}

impl Coder<'_> {
    fn code(&mut self, node: usize, target: u16) {
        self.before[node] = self.code.len() / INSTRUCTION_NUMBERS;
        match self.nodes.node(node) {
            Node::Leaf(group) => self.code.extend([LOAD, target, group, 0]),
            Node::Branch { operator, left, right } => {
                let kind = kind_of(operator);
                if self.needs[right] > self.needs[left] {
                    self.code(right, target);
                    self.code(left, target + 1);
                    self.code.extend([kind, target, target + 1, target]);
                } else {
                    self.code(left, target);
                    self.code(right, target + 1);
                    self.code.extend([kind, target, target, target + 1]);
                }
            }
        }
    }
}

fn coded(nodes: &Nodes) -> Coder<'_> {
    let code = Vec::with_capacity(nodes.count() * INSTRUCTION_NUMBERS);
    let mut coder = Coder { nodes, needs: needs(nodes), code, before: vec![0; nodes.count()] };
    coder.code(nodes.root(), 0);
    coder
}

/// The tree's instructions, four numbers each, or 12.
pub fn encode(list: &[u16]) -> Result<Vec<u16>, Refusal> {
    let nodes = Nodes::parse(list).ok_or(NOT_A_TREE)?;
    Ok(coded(&nodes).code)
}

/// The run of the node at `position` of a tree: its first instruction from 1, and its length. The older player's code
/// has its nodes in the same order.
pub fn run(list: &[u16], position: usize) -> (usize, usize) {
    let nodes = Nodes::parse(list).expect("a tree");
    (coded(&nodes).before[position] + 1, nodes.size(position))
}

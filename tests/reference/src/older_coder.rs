//! Coding a tree for the older player (02, request 8).

use crate::coder::{kind_of, needs, INSTRUCTION_NUMBERS, LOAD};
use crate::refusal::*;
use crate::tree::{Node, Nodes};

pub const SHOW: u16 = 5;

/// A set of registers: bit r is register r.
type Registers = u16;

struct Coder<'a> {
    nodes: &'a Nodes,
    needs: Vec<u8>,
    code: Vec<u16>,
}

impl Coder<'_> {
    /// Adds the node's instructions while operands wait in these registers; answers the register of its result.
    fn code(&mut self, node: usize, waiting: Registers) -> u16 {
        match self.nodes.node(node) {
            Node::Leaf(group) => {
                let register = waiting.trailing_ones() as u16;
                self.code.extend([LOAD, register, group, 0]);
                register
            }
            Node::Branch { operator, left, right } => {
                let right_first = self.needs[right] > self.needs[left];
                let (first, second) = if right_first { (right, left) } else { (left, right) };
                let first = self.code(first, waiting);
                let second = self.code(second, waiting | 1 << first);
                let (left, right) = if right_first { (second, first) } else { (first, second) };
                self.code.extend([kind_of(operator), left, right, 0]);
                left
            }
        }
    }
}

/// The tree's instructions and SHOW, four numbers each, or 12.
pub fn encode(list: &[u16]) -> Result<Vec<u16>, Refusal> {
    let nodes = Nodes::parse(list).ok_or(NOT_A_TREE)?;
    let code = Vec::with_capacity((nodes.count() + 1) * INSTRUCTION_NUMBERS);
    let mut coder = Coder { nodes: &nodes, needs: needs(&nodes), code };
    let register = coder.code(nodes.root(), 0);
    coder.code.extend([SHOW, register, 0, 0]);
    Ok(coder.code)
}

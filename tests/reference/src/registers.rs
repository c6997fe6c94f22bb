//! The registers that a code names, and the fewest with which a tree has any code (02, request 9). These are found by
//! trying every order of the nodes and every choice of registers; neither need nor a coder is used.

use crate::coder::INSTRUCTION_NUMBERS;
use crate::device::Device;
use crate::shape::join;
use crate::tree::{Node, Nodes, THREE_OPERATORS};
use std::collections::{BTreeSet, HashSet, VecDeque};

/// How many different registers a code's instructions read or write.
pub fn registers_named(device: Device, code: &[u16]) -> usize {
    let named = code.chunks(INSTRUCTION_NUMBERS).flat_map(|instruction| {
        let (read, written) = device.registers(instruction);
        read.iter().copied().chain(written)
    });
    named.collect::<BTreeSet<u16>>().len()
}

/// Each shape of a tree with so many leaves, once. The leaves are the groups from `first` on, the operators take turns.
pub fn all_shapes(first: u16, leaves: u16) -> Vec<Vec<u16>> {
    if leaves == 1 {
        return vec![vec![first]];
    }
    let mut shapes = Vec::new();
    for left_leaves in 1..leaves {
        let rights = all_shapes(first + left_leaves, leaves - left_leaves);
        for left in all_shapes(first, left_leaves) {
            for right in &rights {
                let operator = THREE_OPERATORS[shapes.len() % THREE_OPERATORS.len()];
                shapes.push(join(&left, right, operator));
            }
        }
    }
    shapes
}

/// A search has at most so many registers.
const MOST_REGISTERS: usize = 4;

/// Nodes of a small tree: bit n is the node at position n, 0 is none.
type NodeSet = u16;

/// What the instructions so far have come to: the nodes that are done, and for each register the node last put in it.
#[derive(Clone, Copy, PartialEq, Eq, Hash)]
struct State {
    done: NodeSet,
    registers: [NodeSet; MOST_REGISTERS],
}

impl State {
    fn in_registers(&self) -> NodeSet {
        self.registers.iter().fold(0, |nodes, node| nodes | node)
    }

    /// Whether the next instruction may load or work out a node: none has yet, and each operand is in the register that
    /// it was put in, not written since.
    fn allows(&self, node: NodeSet, operands: NodeSet) -> bool {
        self.done & node == 0 && operands & !self.in_registers() == 0
    }

    /// After an instruction that puts a node in a register, or writes a register for no node.
    fn after(mut self, node: NodeSet, register: usize) -> State {
        self.done |= node;
        self.registers[register] = node;
        self
    }

    /// Whether an operand that is still to be read was written over.
    fn lost(&self, nodes: &[(NodeSet, NodeSet)]) -> bool {
        let written_over = self.done & !self.in_registers();
        nodes.iter().any(|&(node, operands)| self.done & node == 0 && operands & written_over != 0)
    }
}

/// Each node with its operands.
fn nodes_with_operands(tree: &[u16]) -> Vec<(NodeSet, NodeSet)> {
    let nodes = Nodes::parse(tree).expect("a tree");
    assert!(nodes.count() <= NodeSet::BITS as usize, "a node without a bit");
    let operands = |node: usize| match nodes.node(node) {
        Node::Leaf(_) => 0,
        Node::Branch { left, right, .. } => 1 << left | 1 << right,
    };
    (0..nodes.count()).map(|node| (1 << node, operands(node))).collect()
}

/// Whether the tree has a code as 02 describes it that names at most so many different registers. With its registers
/// renamed to 0, 1 and so on, any such code is tried here, one for either player too, since a result may go anywhere.
/// States that have lost an operand are tried last, but all are tried.
fn has_code(tree: &[u16], registers: usize) -> bool {
    let nodes = nodes_with_operands(tree);
    let start = State { done: 0, registers: [0; MOST_REGISTERS] };
    let mut reached = HashSet::from([start]);
    let mut waiting = VecDeque::from([start]);
    while let Some(state) = waiting.pop_front() {
        if state.done.count_ones() as usize == tree.len() {
            return true;
        }
        let allowed = nodes.iter().filter(|&&(node, operands)| state.allows(node, operands)).map(|&(node, _)| node);
        for node in allowed.chain([0]) {
            for next in (0..registers).map(|register| state.after(node, register)) {
                if reached.insert(next) {
                    let wait = if next.lost(&nodes) { VecDeque::push_back } else { VecDeque::push_front };
                    wait(&mut waiting, next);
                }
            }
        }
    }
    false
}

/// The fewest different registers that a code of the tree can name, if a search has so many.
pub fn least_registers(tree: &[u16]) -> Option<usize> {
    (1..=MOST_REGISTERS).find(|&registers| has_code(tree, registers))
}

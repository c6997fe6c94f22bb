//! `older_encode`: what is tried of both coders, the operators' code by hand, the buffer's limit, and the rule of 02's
//! request 8 for every instruction.

use crate::coders::{complete, Coder, Input};
use crate::inputs::{chains, code, same, tree, MOST_LEAVES};
use calls::library;
use reference::calls::{older_encode_call, CODE_BUFFER, OLDER_CODE_BUFFER};
use reference::check::ensure;
use reference::coder::{ADD, BOTH, CUT, INSTRUCTION_NUMBERS, LOAD, REGISTERS};
use reference::device::Device;
use reference::key_check::decode;
use reference::older_coder::SHOW;
use reference::random::Random;
use reference::report::Report;
use reference::shape::{some_groups, Operators, Shape};
use reference::tree::{DIFFERENCE, INTERSECTION, MAXIMUM_NODES, UNION};
use std::collections::BTreeSet;

const CODER: Coder = Coder {
    name: "older encode",
    library: library::older_encode,
    reference: older_encode_call,
    buffer: OLDER_CODE_BUFFER,
    difference: |left, right| vec![LOAD, 0, left, 0, LOAD, 1, right, 0, CUT, 0, 1, 0, SHOW, 0, 0, 0],
};

/// Each operator alone, with another one as its left and as its right operand, and so again under a third.
fn operators(report: &mut Report) {
    let all = [(UNION, ADD), (DIFFERENCE, CUT), (INTERSECTION, BOTH)];
    let mut coded = |tree: &[u16], parts: &[&[u16]]| CODER.coded(tree, &parts.concat(), report);
    for (operator, kind) in all {
        coded(&[1, 2, operator], &[&[LOAD, 0, 1, 0, LOAD, 1, 2, 0, kind, 0, 1, 0, SHOW, 0, 0, 0]]);
        for (other, other_kind) in all {
            let below = [LOAD, 0, 1, 0, LOAD, 1, 2, 0, other_kind, 0, 1, 0, LOAD, 1, 3, 0];
            coded(&[1, 2, other, 3, operator], &[&below, &[kind, 0, 1, 0, SHOW, 0, 0, 0]]);
            coded(&[3, 1, 2, other, operator], &[&below, &[kind, 1, 0, 0, SHOW, 1, 0, 0]]);
            for (third, third_kind) in all {
                let below = [&below[..], &[kind, 1, 0, 0, LOAD, 0, 4, 0]].concat();
                coded(&[4, 3, 1, 2, other, operator, third], &[&below, &[third_kind, 0, 1, 0, SHOW, 0, 0, 0]]);
                coded(&[3, 1, 2, other, operator, 4, third], &[&below, &[third_kind, 1, 0, 0, SHOW, 1, 0, 0]]);
            }
        }
    }
}

/// Buffers about the least one: for the smallest tree, and for the largest, which fills it.
fn buffers(report: &mut Report) {
    let code = [LOAD, 0, 7, 0, SHOW, 0, 0, 0];
    for buffer in [0, 1, code.len(), CODE_BUFFER, OLDER_CODE_BUFFER - 1] {
        for tree in [vec![7], complete(MOST_LEAVES), vec![7, 7]] {
            CODER.by_hand(&Input { tree, buffer }, [20, 0], &[], report);
        }
    }
    for buffer in [OLDER_CODE_BUFFER, OLDER_CODE_BUFFER + 1, 2 * OLDER_CODE_BUFFER] {
        CODER.by_hand(&Input { tree: vec![7], buffer }, [0, 2], &code, report);
        let mut out = vec![u16::MAX; buffer];
        let answer = library::older_encode(&complete(MOST_LEAVES), &mut out);
        let last = out[OLDER_CODE_BUFFER - INSTRUCTION_NUMBERS..OLDER_CODE_BUFFER].to_vec();
        let due = ([0, MAXIMUM_NODES as u32 + 1], vec![SHOW, 0, 0, 0]);
        report.test("older encode, 8,192 instructions by hand", same("answer and SHOW", &(answer, last), &due));
        let unwritten = out[OLDER_CODE_BUFFER..].iter().all(|&number| number == u16::MAX);
        report.test("older encode, past 8,192 instructions", ensure(unwritten, "a number is written"));
    }
}

/// The rule of each instruction, by a set of the registers in which operands wait.
fn by_rule(code: &[u16]) -> Result<(), String> {
    let mut waiting: BTreeSet<u16> = BTreeSet::new();
    for (number, instruction) in code.chunks(INSTRUCTION_NUMBERS).enumerate() {
        let fault = format!("instruction {} is not as 02 has it", number + 1);
        let holds = match *instruction {
            [LOAD, register, _, 0] => (0..REGISTERS).find(|free| !waiting.contains(free)) == Some(register),
            [ADD | CUT | BOTH, left, right, 0] => waiting.contains(&left) && left != right && waiting.remove(&right),
            [SHOW, register, 0, 0] => waiting == BTreeSet::from([register]),
            _ => false,
        };
        ensure(holds, &fault)?;
        waiting.insert(instruction[1]);
    }
    ensure(code.len() >= INSTRUCTION_NUMBERS, "no code")
}

/// The kind of each instruction, and the group of each LOAD.
fn nodes(code: &[u16]) -> Vec<(u16, u16)> {
    let node = |instruction: &[u16]| (instruction[0], if instruction[0] == LOAD { instruction[2] } else { 0 });
    code.chunks(INSTRUCTION_NUMBERS).map(node).collect()
}

/// The library's code for the older player follows the rule, computes the tree, and has its nodes in the order of the
/// library's other code.
fn rule(tree: &[u16]) -> Result<(), String> {
    let (newer, older) = (code(Device::Newer, tree), code(Device::Older, tree));
    same("length", &older.len(), &(newer.len() + INSTRUCTION_NUMBERS))?;
    by_rule(&older)?;
    ensure(decode(Device::Older, &older).as_deref() == Some(tree), "the code does not compute the tree")?;
    ensure(nodes(&older[..newer.len()]) == nodes(&newer), "the nodes come in another order")
}

fn rules(report: &mut Report) {
    let mut random = Random::new(13);
    for _ in 0..2000 {
        report.test("older encode, the rule", rule(&tree(20, &mut random)));
    }
    for _ in 0..50 {
        let (groups, shape) = (some_groups(8, &mut random), Shape::any(Operators::All, &mut random));
        let tree = shape.tree(MOST_LEAVES, &groups, &mut random);
        report.test("older encode, the rule, 8,191 nodes", rule(&tree));
    }
    chains().for_each(|tree| report.test("older encode, the rule, chain", rule(&tree)));
    report.test("older encode, the rule, complete tree", rule(&complete(MOST_LEAVES)));
}

pub fn run(report: &mut Report) {
    CODER.run(4000, 60, report);
    operators(report);
    buffers(report);
    rules(report);
}

//! The player (01, "The player").

use crate::coder::{ADD, BOTH, CUT, INSTRUCTION_NUMBERS, LOAD, REGISTERS};
use crate::refusal::*;
use crate::tree::{Set, LAST_GROUP, MAXIMUM_NODES};
use std::collections::HashMap;

pub const LAST_LAMP: u16 = 512;
pub const MAXIMUM_PAIRS: usize = 4096;
pub const LAMP_BYTES: usize = 64;

/// A set of lamps: lamp n is bit (n−1) mod 64 of word (n−1)/64.
pub type Lamps = [u64; 8];
pub type Patch = HashMap<u16, Lamps>;

/// The lamps that a patch gives each group that it names.
pub fn index(pairs: &[u16]) -> Patch {
    let mut patch = Patch::new();
    for pair in pairs.chunks_exact(2) {
        let lamp = usize::from(pair[1] - 1);
        patch.entry(pair[0]).or_default()[lamp / 64] |= 1 << (lamp % 64);
    }
    patch
}

pub fn lamp_bytes(lamps: &Lamps) -> [u8; LAMP_BYTES] {
    std::array::from_fn(|byte| (lamps[byte / 8] >> (8 * (byte % 8))) as u8)
}

fn is_instruction(instruction: &[u16]) -> bool {
    let [kind, target, first, second] = *instruction else { return false };
    let operands = match kind {
        LOAD => (1..=LAST_GROUP).contains(&first) && second == 0,
        ADD | CUT | BOTH => first < REGISTERS && second < REGISTERS,
        _ => false,
    };
    target < REGISTERS && operands
}

fn is_pair(pair: &[u16]) -> bool {
    (1..=LAST_GROUP).contains(&pair[0]) && (1..=LAST_LAMP).contains(&pair[1])
}

/// The first fault of a patch.
pub fn patch_fault(patch: &[u16]) -> Option<Refusal> {
    if patch.len() % 2 != 0 || patch.len() / 2 > MAXIMUM_PAIRS {
        return Some(PATCH_LENGTH);
    }
    (!patch.chunks_exact(2).all(is_pair)).then_some(PAIR)
}

/// The first fault of the code and the patch.
fn fault(code: &[u16], patch: &[u16]) -> Option<Refusal> {
    let count = code.len() / INSTRUCTION_NUMBERS;
    if count == 0 || count > MAXIMUM_NODES || code.len() % INSTRUCTION_NUMBERS != 0 {
        return Some(CODE_LENGTH);
    }
    if !code.chunks_exact(INSTRUCTION_NUMBERS).all(is_instruction) {
        return Some(INSTRUCTION);
    }
    patch_fault(patch)
}

/// The lamps lit, or 22 to 25.
pub fn play(code: &[u16], patch: &[u16]) -> Result<[u8; LAMP_BYTES], Refusal> {
    if let Some(number) = fault(code, patch) {
        return Err(number);
    }
    let patch = index(patch);
    let mut registers = [Lamps::default(); REGISTERS as usize];
    for instruction in code.chunks_exact(INSTRUCTION_NUMBERS) {
        let (first, second) = (usize::from(instruction[2]), usize::from(instruction[3]));
        registers[usize::from(instruction[1])] = match instruction[0] {
            LOAD => patch.get(&instruction[2]).copied().unwrap_or_default(),
            ADD => registers[first].union(&registers[second]),
            CUT => registers[first].difference(&registers[second]),
            _ => registers[first].intersection(&registers[second]),
        };
    }
    Ok(lamp_bytes(&registers[0]))
}

//! The older player (02, request 8).

use crate::coder::{ADD, BOTH, CUT, INSTRUCTION_NUMBERS, LOAD, REGISTERS};
use crate::older_coder::SHOW;
use crate::player::{index, lamp_bytes, patch_fault, Lamps, LAMP_BYTES};
use crate::refusal::*;
use crate::tree::{Set, LAST_GROUP, MAXIMUM_NODES};

/// One for each node, and SHOW.
pub const MAXIMUM_INSTRUCTIONS: usize = MAXIMUM_NODES + 1;

/// An instruction before the last.
fn is_instruction(instruction: &[u16]) -> bool {
    let [kind, register, second, unused] = *instruction else { return false };
    let operand = match kind {
        LOAD => (1..=LAST_GROUP).contains(&second),
        ADD | CUT | BOTH => second < REGISTERS,
        _ => false,
    };
    register < REGISTERS && operand && unused == 0
}

fn is_last_instruction(instruction: &[u16]) -> bool {
    matches!(instruction, [SHOW, register, 0, 0] if *register < REGISTERS)
}

/// The code without SHOW and the register that it names, or 22 or 23.
fn parts(code: &[u16]) -> Result<(&[u16], u16), Refusal> {
    let count = code.len() / INSTRUCTION_NUMBERS;
    if count == 0 || count > MAXIMUM_INSTRUCTIONS || code.len() % INSTRUCTION_NUMBERS != 0 {
        return Err(CODE_LENGTH);
    }
    let (before, last) = code.split_at(code.len() - INSTRUCTION_NUMBERS);
    if before.chunks_exact(INSTRUCTION_NUMBERS).all(is_instruction) && is_last_instruction(last) {
        Ok((before, last[1]))
    } else {
        Err(INSTRUCTION)
    }
}

/// The lamps lit, or 22 to 25.
pub fn play(code: &[u16], patch: &[u16]) -> Result<[u8; LAMP_BYTES], Refusal> {
    let (before, shown) = parts(code)?;
    if let Some(number) = patch_fault(patch) {
        return Err(number);
    }
    let patch = index(patch);
    let mut registers = [Lamps::default(); REGISTERS as usize];
    for instruction in before.chunks_exact(INSTRUCTION_NUMBERS) {
        let (changed, second) = (usize::from(instruction[1]), usize::from(instruction[2]));
        registers[changed] = match instruction[0] {
            LOAD => patch.get(&instruction[2]).copied().unwrap_or_default(),
            ADD => registers[changed].union(&registers[second]),
            CUT => registers[changed].difference(&registers[second]),
            _ => registers[changed].intersection(&registers[second]),
        };
    }
    Ok(lamp_bytes(&registers[usize::from(shown)]))
}

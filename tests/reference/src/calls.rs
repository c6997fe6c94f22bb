//! The calls with lent buffers: the answer as numbers, and the buffer as 01 leaves it.

use crate::coder::{encode, INSTRUCTION_NUMBERS};
use crate::compact;
use crate::gather::gather;
use crate::lift::{lift_by, Lifted, Table};
use crate::older_player::MAXIMUM_INSTRUCTIONS;
use crate::player::{play, LAMP_BYTES};
use crate::questions::{index_of, tree_at, MOST_ENTRIES};
use crate::refusal::{Refusal, SHORT_CODE_BUFFER, SHORT_TREE_BUFFER, TABLE_WORD, UNDER_64_BYTES};
use crate::table::School;
use crate::tree::MAXIMUM_NODES;
use crate::{older_coder, older_player};

/// The least buffers of the calls.
pub const TREE_BUFFER: usize = MAXIMUM_NODES;
pub const CODE_BUFFER: usize = MAXIMUM_NODES * INSTRUCTION_NUMBERS;
pub const OLDER_CODE_BUFFER: usize = MAXIMUM_INSTRUCTIONS * INSTRUCTION_NUMBERS;

/// Number, length, position, looks; all but the number are 0 when refused.
pub type LiftAnswer = [u32; 4];
/// Number, length, holder's position; all but the number are 0 when refused.
pub type GatherAnswer = [u32; 3];
/// Number, count of instructions; the count is 0 when refused.
pub type EncodeAnswer = [u32; 2];
/// Number, count of entries; the count is 0 when refused.
pub type TreeAtAnswer = [u32; 2];
/// Number, index; the index is 0 when refused.
pub type IndexOfAnswer = [u32; 2];

/// Writes the result of a call whose buffer must hold `least` numbers.
fn written<T>(
    out: &mut [u16],
    least: usize,
    short: Refusal,
    call: impl FnOnce() -> Result<(Vec<u16>, T), Refusal>,
) -> Result<(u32, T), Refusal> {
    if out.len() < least {
        return Err(short);
    }
    let (numbers, rest) = call()?;
    out[..numbers.len()].copy_from_slice(&numbers);
    Ok((numbers.len() as u32, rest))
}

fn lifted(table: Table, tree: &[u16], position: usize, levels: usize, out: &mut [u16]) -> LiftAnswer {
    let parts = |Lifted { tree, position, looks }| (tree, (position, looks));
    let call = || lift_by(table, tree, position, levels).map(parts);
    match written(out, TREE_BUFFER, SHORT_TREE_BUFFER, call) {
        Ok((length, (position, looks))) => [0, length, position as u32, looks as u32],
        Err(number) => [number.into(), 0, 0, 0],
    }
}

pub fn lift_call(tree: &[u16], position: usize, levels: usize, out: &mut [u16]) -> LiftAnswer {
    lifted(Table::Ours, tree, position, levels, out)
}

/// The lift by a school's table held by value. One that loading could not have made is refused before all else.
pub fn lift_with_call(
    tree: &[u16],
    position: usize,
    levels: usize,
    out: &mut [u16],
    signs: &[u8],
    lengths: &[u8],
) -> LiftAnswer {
    match School::of_rows(signs, lengths) {
        Some(school) => lifted(Table::School(&school), tree, position, levels, out),
        None => [TABLE_WORD.into(), 0, 0, 0],
    }
}

fn gathered(out: &mut [u16], call: impl FnOnce() -> Result<(Vec<u16>, usize), Refusal>) -> GatherAnswer {
    match written(out, TREE_BUFFER, SHORT_TREE_BUFFER, call) {
        Ok((length, holder)) => [0, length, holder as u32],
        Err(number) => [number.into(), 0, 0],
    }
}

/// The gathering with the plain builder.
pub fn gather_call(tree: &[u16], marks: &[u16], out: &mut [u16]) -> GatherAnswer {
    gathered(out, || gather(tree, marks))
}

/// The gathering with the compact builder.
pub fn compact_gather_call(tree: &[u16], marks: &[u16], out: &mut [u16]) -> GatherAnswer {
    gathered(out, || compact::gather(tree, marks))
}

fn coded(out: &mut [u16], least: usize, call: impl FnOnce() -> Result<Vec<u16>, Refusal>) -> EncodeAnswer {
    match written(out, least, SHORT_CODE_BUFFER, || Ok((call()?, ()))) {
        Ok((length, ())) => [0, length / INSTRUCTION_NUMBERS as u32],
        Err(number) => [number.into(), 0],
    }
}

pub fn encode_call(tree: &[u16], out: &mut [u16]) -> EncodeAnswer {
    coded(out, CODE_BUFFER, || encode(tree))
}

pub fn older_encode_call(tree: &[u16], out: &mut [u16]) -> EncodeAnswer {
    coded(out, OLDER_CODE_BUFFER, || older_coder::encode(tree))
}

fn played(lamps: &mut [u8], call: impl FnOnce() -> Result<[u8; LAMP_BYTES], Refusal>) -> Refusal {
    if lamps.len() < LAMP_BYTES {
        return UNDER_64_BYTES;
    }
    match call() {
        Ok(lit) => {
            lamps[..LAMP_BYTES].copy_from_slice(&lit);
            0
        }
        Err(number) => number,
    }
}

pub fn play_call(code: &[u16], patch: &[u16], lamps: &mut [u8]) -> Refusal {
    played(lamps, || play(code, patch))
}

pub fn older_play_call(code: &[u16], patch: &[u16], lamps: &mut [u8]) -> Refusal {
    played(lamps, || older_player::play(code, patch))
}

/// The tree with zeros behind it, or zeros alone when refused, goes into the first seven places, as far as there are so
/// many.
pub fn tree_at_call(index: usize, entries: &mut [u16]) -> TreeAtAnswer {
    let question = tree_at(index);
    let tree = question.unwrap_or_default();
    let mut numbers = [0; MOST_ENTRIES];
    numbers[..tree.len()].copy_from_slice(tree);
    let places = entries.len().min(MOST_ENTRIES);
    entries[..places].copy_from_slice(&numbers[..places]);
    match question {
        Ok(tree) => [0, tree.len() as u32],
        Err(number) => [number.into(), 0],
    }
}

pub fn index_of_call(list: &[u16]) -> IndexOfAnswer {
    match index_of(list) {
        Ok(index) => [0, index as u32],
        Err(number) => [number.into(), 0],
    }
}

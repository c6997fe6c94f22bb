//! What code for the older player shows; the driver counts it.

use crate::coder::{INSTRUCTION_NUMBERS, LOAD};
use crate::older_coder::SHOW;
use std::collections::BTreeMap;

#[derive(Clone, Copy, PartialEq, Eq, PartialOrd, Ord, Debug)]
pub enum OlderTrait {
    /// SHOW of register 0, and of another.
    ShowOf0,
    ShowOfAnother,
    /// An operator whose left operand came second: the result stays in the later one's register.
    LeftOperandLater,
    /// A leaf loaded into a register below one in which an operand waits.
    LoadBelowWaiting,
    /// An operator's kind, by which of its registers is the larger.
    FirstLarger(u16),
    SecondLarger(u16),
    /// The highest register that the code names.
    HighestRegister(u16),
}

/// Each register in which an operand waits, with the instruction that put it there.
type Waiting = BTreeMap<u16, usize>;

fn operator_traits(kind: u16, left: u16, right: u16, waiting: &Waiting) -> Vec<OlderTrait> {
    let larger = if left > right { OlderTrait::FirstLarger(kind) } else { OlderTrait::SecondLarger(kind) };
    let later = waiting.get(&left) > waiting.get(&right);
    [larger].into_iter().chain(later.then_some(OlderTrait::LeftOperandLater)).collect()
}

/// Each trait once.
pub fn older_traits(code: &[u16]) -> Vec<OlderTrait> {
    let mut traits = Vec::new();
    let mut waiting = Waiting::new();
    let mut highest = 0;
    for (number, instruction) in code.chunks_exact(INSTRUCTION_NUMBERS).enumerate() {
        let (kind, first, second) = (instruction[0], instruction[1], instruction[2]);
        highest = highest.max(first);
        match kind {
            LOAD if waiting.range(first..).next().is_some() => traits.push(OlderTrait::LoadBelowWaiting),
            LOAD => {}
            SHOW if first == 0 => traits.push(OlderTrait::ShowOf0),
            SHOW => traits.push(OlderTrait::ShowOfAnother),
            _ => {
                traits.extend(operator_traits(kind, first, second, &waiting));
                waiting.remove(&second);
            }
        }
        waiting.insert(first, number);
    }
    traits.push(OlderTrait::HighestRegister(highest));
    traits.sort();
    traits.dedup();
    traits
}

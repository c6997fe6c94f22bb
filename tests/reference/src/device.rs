//! The two players that code is made for: 01's, and the older one (02, request 8).

use crate::coder::{self, ADD, BOTH, CUT, INSTRUCTION_NUMBERS, LOAD};
use crate::older_coder::{self, SHOW};
use crate::older_player;
use crate::player::{self, LAMP_BYTES};
use crate::refusal::Refusal;

#[derive(Clone, Copy, PartialEq, Eq, Debug, Default)]
pub enum Device {
    #[default]
    Newer,
    Older,
}

impl Device {
    /// The tree's instructions, or 12.
    pub fn encode(self, list: &[u16]) -> Result<Vec<u16>, Refusal> {
        match self {
            Device::Newer => coder::encode(list),
            Device::Older => older_coder::encode(list),
        }
    }

    /// The lamps lit, or 22 to 25.
    pub fn play(self, code: &[u16], patch: &[u16]) -> Result<[u8; LAMP_BYTES], Refusal> {
        match self {
            Device::Newer => player::play(code, patch),
            Device::Older => older_player::play(code, patch),
        }
    }

    /// The registers that an instruction reads, and the one that it writes.
    pub fn registers(self, instruction: &[u16]) -> (&[u16], Option<u16>) {
        match (self, instruction[0]) {
            (_, LOAD) => (&[], Some(instruction[1])),
            (Device::Newer, _) => (&instruction[2..], Some(instruction[1])),
            (Device::Older, SHOW) => (&instruction[1..2], None),
            (Device::Older, _) => (&instruction[1..3], Some(instruction[1])),
        }
    }

    /// The instructions that compute the answer, and the register in which they leave it.
    pub fn computing(self, code: &[u16]) -> Option<(&[u16], u16)> {
        match (self, code) {
            (Device::Newer, _) => Some((code, 0)),
            (Device::Older, [computing @ .., SHOW, register, 0, 0]) => Some((computing, *register)),
            (Device::Older, _) => None,
        }
    }

    fn kinds(self) -> std::ops::RangeInclusive<u16> {
        match self {
            Device::Newer => LOAD..=BOTH,
            Device::Older => LOAD..=SHOW,
        }
    }

    /// A kind's name, and how many of its numbers are printed.
    pub fn form(self, kind: u16) -> (&'static str, usize) {
        let operands = match self {
            Device::Newer => 3,
            Device::Older => 2,
        };
        match kind {
            LOAD => ("LOAD", 2),
            ADD => ("ADD", operands),
            CUT => ("CUT", operands),
            BOTH => ("BOTH", operands),
            _ => ("SHOW", 1),
        }
    }

    /// The instruction that is printed as this name and these numbers.
    pub fn instruction(self, name: &str, numbers: &[usize]) -> Option<[u16; INSTRUCTION_NUMBERS]> {
        let mut instruction = [0; INSTRUCTION_NUMBERS];
        instruction[0] = self.kinds().find(|&kind| self.form(kind) == (name, numbers.len()))?;
        for (place, &number) in instruction[1..].iter_mut().zip(numbers) {
            *place = number.try_into().ok()?;
        }
        Some(instruction)
    }
}

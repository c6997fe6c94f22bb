//! The key (01, "The key program"): made from a sheet for a device, printed, and read back.

use crate::coder::{run, INSTRUCTION_NUMBERS};
use crate::device::Device;
use crate::gather::gather;
use crate::lift::{lift_noting_steps, Step, Table};
use crate::refusal::{Refusal, INTERSECTION_ABOVE, NO_STEP, RESULT_TOO_LONG};
use crate::sheet::{read, Fault, Sheet};
use crate::table::School;

#[derive(Debug, Clone, Copy, PartialEq, Eq)]
pub enum Held {
    At { first: usize, count: usize },
    Cannot(u16),
}

#[derive(Debug, Default, PartialEq, Eq)]
pub struct Key {
    pub device: Device,
    /// Number, position and looks.
    pub lifts: Vec<(usize, usize, usize)>,
    pub held: Option<Held>,
    pub code: Vec<u16>,
}

/// What a sheet's lifts come to.
#[derive(Default)]
pub struct Lifts {
    /// The tree that they leave.
    pub tree: Vec<u16>,
    /// Number, position and looks of each.
    pub lines: Vec<(usize, usize, usize)>,
    /// The steps of those that were done.
    pub steps: Vec<Step>,
    /// Those of these steps that another of the same lift follows, in the state that they lead to.
    pub followed_steps: Vec<Step>,
    /// The steps that were refused with 15, 16 or 27.
    pub refused_steps: Vec<RefusedStep>,
}

/// A step that was refused, and the one before it of the same lift, if it was not the first.
pub struct RefusedStep {
    pub number: Refusal,
    pub step: Step,
    pub before: Option<Step>,
}

/// By our own table.
pub fn lifts(sheet: &Sheet) -> Lifts {
    lifts_by(Table::Ours, sheet)
}

pub fn lifts_by(table: Table, sheet: &Sheet) -> Lifts {
    let mut lifts = Lifts { tree: sheet.tree.clone(), ..Lifts::default() };
    for &(position, levels) in &sheet.lifts {
        let mut steps = Vec::new();
        lifts.lines.push(match lift_noting_steps(table, &lifts.tree, position, levels, &mut steps) {
            Ok(lifted) => {
                lifts.tree = lifted.tree;
                lifts.followed_steps.extend_from_slice(&steps[..steps.len() - 1]);
                lifts.steps.extend(steps);
                (0, lifted.position, lifted.looks)
            }
            Err(number) => {
                if [NO_STEP, RESULT_TOO_LONG, INTERSECTION_ABOVE].contains(&number) {
                    let step = steps.pop().expect("a step");
                    lifts.refused_steps.push(RefusedStep { number, step, before: steps.pop() });
                }
                (usize::from(number), position, 0)
            }
        });
    }
    lifts
}

/// The key of a sheet with these marks after its lifts.
pub fn key(device: Device, lifts: &Lifts, marks: &[u16]) -> Key {
    let coded = |tree: &[u16], held: Option<Held>| {
        let code = device.encode(tree).expect("a tree");
        Key { device, lifts: lifts.lines.clone(), held, code }
    };
    if marks.is_empty() {
        return coded(&lifts.tree, None);
    }
    match gather(&lifts.tree, marks) {
        Ok((gathered, holder)) => {
            let (first, count) = run(&gathered, holder);
            coded(&gathered, Some(Held::At { first, count }))
        }
        Err(number) => Key { device, lifts: lifts.lines.clone(), held: Some(Held::Cannot(number)), code: Vec::new() },
    }
}

/// The key's bytes for any bytes, by our own table.
pub fn key_bytes(device: Device, bytes: &[u8]) -> Vec<u8> {
    key_bytes_by(device, Table::Ours, bytes)
}

pub fn key_bytes_by(device: Device, table: Table, bytes: &[u8]) -> Vec<u8> {
    match read(bytes) {
        Ok(sheet) => key(device, &lifts_by(table, &sheet), &sheet.marks).print(),
        Err(fault) => fault.print(),
    }
}

/// The key's bytes by the table of a file's bytes; a refused table is all that is looked at.
pub fn school_key_bytes(device: Device, table: &[u8], sheet: impl FnOnce() -> Vec<u8>) -> Vec<u8> {
    match School::load(table) {
        Ok(school) => key_bytes_by(device, Table::School(&school), &sheet()),
        Err(fault) => fault.print(),
    }
}

/// Adds a line: a name and numbers, parted by tabs.
pub fn line(name: &str, numbers: &[usize], bytes: &mut Vec<u8>) {
    bytes.extend(name.as_bytes());
    for number in numbers {
        bytes.push(b'\t');
        bytes.extend(number.to_string().as_bytes());
    }
    bytes.push(b'\n');
}

impl Fault {
    pub fn print(&self) -> Vec<u8> {
        let mut bytes = Vec::new();
        line("NO", &[usize::from(self.number), self.line], &mut bytes);
        bytes
    }
}

impl Key {
    pub fn print(&self) -> Vec<u8> {
        let mut bytes = Vec::new();
        for &(number, position, looks) in &self.lifts {
            line("LIFT", &[number, position, looks], &mut bytes);
        }
        match self.held {
            Some(Held::At { first, count }) => line("HELD", &[0, first, count], &mut bytes),
            Some(Held::Cannot(number)) => line("HELD", &[usize::from(number)], &mut bytes),
            None => {}
        }
        for instruction in self.code.chunks(INSTRUCTION_NUMBERS) {
            let (name, count) = self.device.form(instruction[0]);
            let numbers: Vec<usize> = instruction[1..=count].iter().map(|&number| usize::from(number)).collect();
            line(name, &numbers, &mut bytes);
        }
        bytes
    }

    /// The key that prints as these bytes exactly.
    pub fn parse(device: Device, bytes: &[u8]) -> Option<Key> {
        let mut key = Key { device, ..Key::default() };
        for line in std::str::from_utf8(bytes).ok()?.lines() {
            let mut fields = line.split('\t');
            let name = fields.next()?;
            let numbers: Option<Vec<usize>> = fields.map(|field| field.parse().ok()).collect();
            key.add_line(name, &numbers?)?;
        }
        (key.print() == bytes).then_some(key)
    }

    fn add_line(&mut self, name: &str, numbers: &[usize]) -> Option<()> {
        match (name, numbers) {
            ("LIFT", &[number, position, looks]) => self.lifts.push((number, position, looks)),
            ("HELD", &[0, first, count]) => self.held = Some(Held::At { first, count }),
            ("HELD", &[number]) => self.held = Some(Held::Cannot(number.try_into().ok()?)),
            _ => self.code.extend(self.device.instruction(name, numbers)?),
        }
        Some(())
    }
}
